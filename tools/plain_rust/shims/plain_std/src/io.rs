//! Input and output are Rust's own, but for what prints through a runtime.

use std::fmt::Arguments;
use std::mem::ManuallyDrop;
use std::os::fd::FromRawFd;

pub use std::io::*;

/// What has a standard output.
pub trait Print {
    /// Prints a text.
    fn print_text(&self, text: Arguments<'_>) -> Result<()>;

    /// Writes some of the bytes, and gives how many.
    fn write_some(&self, bytes: &[u8]) -> Result<usize>;
}

/// What has a standard error.
pub trait Eprint {
    /// Prints a text.
    fn eprint_text(&self, text: Arguments<'_>) -> Result<()>;
}

impl<R: Print + ?Sized> Print for &R {
    fn print_text(&self, text: Arguments<'_>) -> Result<()> {
        (**self).print_text(text)
    }

    fn write_some(&self, bytes: &[u8]) -> Result<usize> {
        (**self).write_some(bytes)
    }
}

impl<R: Eprint + ?Sized> Eprint for &R {
    fn eprint_text(&self, text: Arguments<'_>) -> Result<()> {
        (**self).eprint_text(text)
    }
}

/// Prints a text to the file of this number, in one write if it is taken whole.
pub(crate) fn print_to(number: i32, text: Arguments<'_>) -> Result<()> {
    // SAFETY: the file stays open, since it isn't dropped.
    let file = ManuallyDrop::new(unsafe { std::fs::File::from_raw_fd(number) });
    (&*file).write_all(text.to_string().as_bytes())
}
