//! Vectors.

use crate::alloc::{AllocError, AllocFailed, Global};
use std::fmt;
use std::ops::{Deref, DerefMut, Index, IndexMut};
use std::slice::{Iter, IterMut, SliceIndex};

/// A vector.
#[derive(PartialEq, Eq, PartialOrd, Ord, Hash)]
pub struct Vec<T>(pub(crate) std::vec::Vec<T>);

impl<T> Vec<T> {
    #[inline]
    pub fn new(_alloc: Global) -> Vec<T> {
        Vec(std::vec::Vec::new())
    }

    #[inline]
    pub fn with_capacity(_alloc: Global, capacity: usize) -> Result<Vec<T>, AllocError> {
        Ok(Vec(std::vec::Vec::with_capacity(capacity)))
    }

    #[inline]
    pub fn allocator(&self) -> &Global {
        &Global
    }

    #[inline]
    pub fn len(&self) -> usize {
        self.0.len()
    }

    #[inline]
    pub fn is_empty(&self) -> bool {
        self.0.is_empty()
    }

    #[inline]
    pub fn capacity(&self) -> usize {
        self.0.capacity()
    }

    #[inline]
    pub fn as_slice(&self) -> &[T] {
        self.0.as_slice()
    }

    #[inline]
    pub fn as_mut_slice(&mut self) -> &mut [T] {
        self.0.as_mut_slice()
    }

    #[inline]
    pub fn push(&mut self, value: T) -> Result<(), AllocFailed<T>> {
        self.0.push(value);
        Ok(())
    }

    #[inline]
    pub fn push_reserved(&mut self, value: T) {
        self.0.push(value);
    }

    #[inline]
    pub fn pop(&mut self) -> Option<T> {
        self.0.pop()
    }

    #[inline]
    pub fn reserve(&mut self, more: usize) -> Result<(), AllocError> {
        self.0.reserve(more);
        Ok(())
    }

    #[inline]
    pub fn truncate(&mut self, len: usize) {
        self.0.truncate(len);
    }

    #[inline]
    pub fn clear(&mut self) {
        self.0.clear();
    }

    #[inline]
    pub fn insert(&mut self, index: usize, value: T) -> Result<(), AllocFailed<T>> {
        self.0.insert(index, value);
        Ok(())
    }

    #[inline]
    pub fn remove(&mut self, index: usize) -> T {
        self.0.remove(index)
    }

    #[inline]
    pub fn swap_remove(&mut self, index: usize) -> T {
        self.0.swap_remove(index)
    }

    #[inline]
    pub fn append(&mut self, other: &mut Vec<T>) -> Result<(), AllocError> {
        self.0.append(&mut other.0);
        Ok(())
    }

    pub fn retain(&mut self, keeps: impl FnMut(&T) -> bool) {
        self.0.retain(keeps);
    }

    pub fn sort(&mut self) -> Result<(), AllocError>
    where
        T: Ord,
    {
        self.0.sort();
        Ok(())
    }

    pub fn sort_by_key<K: Ord>(&mut self, key: impl FnMut(&T) -> K) -> Result<(), AllocError> {
        self.0.sort_by_key(key);
        Ok(())
    }

    pub fn dedup(&mut self)
    where
        T: PartialEq,
    {
        self.0.dedup();
    }
}

impl<T: Copy> Vec<T> {
    #[inline]
    pub fn from_slice(_alloc: Global, items: &[T]) -> Result<Vec<T>, AllocError> {
        Ok(Vec(items.to_vec()))
    }

    #[inline]
    pub fn from_elem(_alloc: Global, item: T, count: usize) -> Result<Vec<T>, AllocError> {
        Ok(Vec(vec![item; count]))
    }

    #[inline]
    pub fn extend_from_slice(&mut self, items: &[T]) -> Result<(), AllocError> {
        self.0.extend_from_slice(items);
        Ok(())
    }

    #[inline]
    pub fn resize(&mut self, len: usize, item: T) -> Result<(), AllocError> {
        self.0.resize(len, item);
        Ok(())
    }
}

impl<T> Vec<T> {
    /// The vector of the items of an array.
    pub fn from_array<const N: usize>(_alloc: Global, items: [T; N]) -> Result<Vec<T>, AllocError> {
        Ok(Vec(items.into()))
    }
}

impl<T: fmt::Debug> fmt::Debug for Vec<T> {
    fn fmt(&self, f: &mut fmt::Formatter<'_>) -> fmt::Result {
        self.0.fmt(f)
    }
}

impl<T> Deref for Vec<T> {
    type Target = [T];

    #[inline]
    fn deref(&self) -> &[T] {
        &self.0
    }
}

impl<T> DerefMut for Vec<T> {
    #[inline]
    fn deref_mut(&mut self) -> &mut [T] {
        &mut self.0
    }
}

impl<T, I: SliceIndex<[T]>> Index<I> for Vec<T> {
    type Output = I::Output;

    #[inline]
    fn index(&self, index: I) -> &I::Output {
        &self.0[index]
    }
}

impl<T, I: SliceIndex<[T]>> IndexMut<I> for Vec<T> {
    #[inline]
    fn index_mut(&mut self, index: I) -> &mut I::Output {
        &mut self.0[index]
    }
}

impl<T> IntoIterator for Vec<T> {
    type Item = T;
    type IntoIter = std::vec::IntoIter<T>;

    #[inline]
    fn into_iter(self) -> std::vec::IntoIter<T> {
        self.0.into_iter()
    }
}

impl<'a, T> IntoIterator for &'a Vec<T> {
    type Item = &'a T;
    type IntoIter = Iter<'a, T>;

    #[inline]
    fn into_iter(self) -> Iter<'a, T> {
        self.0.iter()
    }
}

impl<'a, T> IntoIterator for &'a mut Vec<T> {
    type Item = &'a mut T;
    type IntoIter = IterMut<'a, T>;

    #[inline]
    fn into_iter(self) -> IterMut<'a, T> {
        self.0.iter_mut()
    }
}
