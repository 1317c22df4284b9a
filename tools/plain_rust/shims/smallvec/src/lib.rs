//! Vectors that keep a few items in themselves, as the crate `smallvec` has them, of items that are copied.

use plain_std::alloc::{AllocError, AllocFailed, Global};
use std::fmt::{Debug, Formatter, Result as Shown};

/// A vector of which up to `N` items need no memory of their own.
pub struct SmallVec<T, const N: usize> {
    /// How many items are in `near`, if `far` has none.
    len: usize,
    near: [T; N],
    /// All items, once they are more than `N`.
    far: Vec<T>,
}

impl<T: Copy + Default, const N: usize> SmallVec<T, N> {
    #[inline]
    pub fn new(_alloc: Global) -> SmallVec<T, N> {
        SmallVec {
            len: 0,
            near: [T::default(); N],
            far: Vec::new(),
        }
    }

    #[inline]
    pub fn from_slice(alloc: Global, items: &[T]) -> Result<SmallVec<T, N>, AllocError> {
        let mut made = SmallVec::new(alloc);
        if items.len() <= N {
            made.near[..items.len()].copy_from_slice(items);
            made.len = items.len();
        } else {
            made.far.extend_from_slice(items);
        }
        Ok(made)
    }

    #[inline]
    pub fn push(&mut self, item: T) -> Result<(), AllocFailed<T>> {
        if self.far.is_empty() && self.len < N {
            self.near[self.len] = item;
            self.len += 1;
            return Ok(());
        }
        if self.far.is_empty() {
            self.far.extend_from_slice(&self.near[..self.len]);
        }
        self.far.push(item);
        Ok(())
    }

    #[inline]
    pub fn as_slice(&self) -> &[T] {
        if self.far.is_empty() {
            &self.near[..self.len]
        } else {
            &self.far
        }
    }

    #[inline]
    pub fn len(&self) -> usize {
        self.as_slice().len()
    }

    #[inline]
    pub fn is_empty(&self) -> bool {
        self.as_slice().is_empty()
    }
}

impl<T: Copy + Default + Debug, const N: usize> Debug for SmallVec<T, N> {
    fn fmt(&self, f: &mut Formatter<'_>) -> Shown {
        self.as_slice().fmt(f)
    }
}
