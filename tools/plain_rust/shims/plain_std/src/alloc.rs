//! The allocator, which is Rust's own, and the two errors of what allocates.

use std::error::Error;
use std::fmt::{Debug, Display, Formatter, Result};
use std::io;

/// The allocator.
#[derive(Clone, Copy, Debug)]
pub struct Global;

/// There was no memory.
#[derive(Clone, Copy, Debug, PartialEq, Eq)]
pub struct AllocError;

/// There was no memory for a value.
pub struct AllocFailed<T> {
    /// The value.
    pub value: T,
}

impl Display for AllocError {
    fn fmt(&self, f: &mut Formatter<'_>) -> Result {
        f.write_str("memory allocation failed")
    }
}

impl Error for AllocError {}

impl<T> Debug for AllocFailed<T> {
    fn fmt(&self, f: &mut Formatter<'_>) -> Result {
        f.write_str("AllocFailed")
    }
}

impl<T> Display for AllocFailed<T> {
    fn fmt(&self, f: &mut Formatter<'_>) -> Result {
        f.write_str("memory allocation failed")
    }
}

impl<T> Error for AllocFailed<T> {}

impl<T> From<AllocFailed<T>> for AllocError {
    #[inline]
    fn from(_: AllocFailed<T>) -> AllocError {
        AllocError
    }
}

impl From<AllocError> for io::Error {
    fn from(_: AllocError) -> io::Error {
        io::ErrorKind::OutOfMemory.into()
    }
}

impl<T> From<AllocFailed<T>> for io::Error {
    fn from(_: AllocFailed<T>) -> io::Error {
        io::ErrorKind::OutOfMemory.into()
    }
}
