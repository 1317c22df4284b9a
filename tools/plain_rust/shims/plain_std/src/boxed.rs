//! Boxes are Rust's own, so that one of a type is taken as one of a trait; these are their two calls.

use crate::alloc::{AllocFailed, Global};

/// `Box::new` and `Box::into_inner`, under names that Rust's box doesn't have.
pub trait BoxIn<T> {
    /// `Box::new`
    fn new_box(alloc: Global, value: T) -> Result<Box<T>, AllocFailed<T>>;

    /// `Box::into_inner`
    fn into_inner_box(whole: Box<T>) -> T;
}

impl<T> BoxIn<T> for Box<T> {
    #[inline]
    fn new_box(_alloc: Global, value: T) -> Result<Box<T>, AllocFailed<T>> {
        Ok(Box::new(value))
    }

    #[inline]
    fn into_inner_box(whole: Box<T>) -> T {
        *whole
    }
}
