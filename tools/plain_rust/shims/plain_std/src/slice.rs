//! The calls of slices and iterators that take an allocator, under names that Rust's own don't have.

use crate::alloc::{AllocError, Global};
use crate::vec::Vec;

pub use std::slice::*;

/// The calls of slices.
pub trait SliceIn<T> {
    /// `to_vec`
    fn to_vec_in(&self, alloc: Global) -> Result<Vec<T>, AllocError>;
}

impl<T: Copy> SliceIn<T> for [T] {
    #[inline]
    fn to_vec_in(&self, _alloc: Global) -> Result<Vec<T>, AllocError> {
        Ok(Vec(self.to_vec()))
    }
}

/// The calls of iterators.
pub trait CollectIn: Iterator + Sized {
    /// `collect`, to a vector
    fn collect_in(self, alloc: Global) -> Result<Vec<Self::Item>, AllocError>;
}

impl<I: Iterator> CollectIn for I {
    fn collect_in(self, _alloc: Global) -> Result<Vec<I::Item>, AllocError> {
        Ok(Vec(self.collect()))
    }
}
