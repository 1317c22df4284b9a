//! Maps and sets by hashes. The hashes are the same in each run.

use crate::alloc::{AllocError, AllocFailed, Global};
use std::borrow::Borrow;
use std::collections::hash_map::{Entry, Iter};
use std::fmt::{Debug, Formatter, Result as Shown};
use std::hash::{BuildHasherDefault, Hash, Hasher};

/// Folds each piece of a value into a number, and mixes the bits at the end.
#[derive(Clone, Copy, Default)]
pub struct Folding(u64);

/// An odd number with bits all over: 2 to the power 64 over the golden ratio.
const SPREAD: u64 = 0x9e37_79b9_7f4a_7c15;

impl Hasher for Folding {
    #[inline]
    fn write(&mut self, bytes: &[u8]) {
        for piece in bytes.chunks(8) {
            let mut eight = [0; 8];
            eight[..piece.len()].copy_from_slice(piece);
            self.write_u64(u64::from_le_bytes(eight));
        }
    }

    #[inline]
    fn write_u8(&mut self, value: u8) {
        self.write_u64(value.into());
    }

    #[inline]
    fn write_u32(&mut self, value: u32) {
        self.write_u64(value.into());
    }

    #[inline]
    fn write_u64(&mut self, value: u64) {
        self.0 = (self.0.rotate_left(5) ^ value).wrapping_mul(SPREAD);
    }

    #[inline]
    fn write_usize(&mut self, value: usize) {
        self.write_u64(value as u64);
    }

    #[inline]
    fn finish(&self) -> u64 {
        (self.0 ^ (self.0 >> 32)).wrapping_mul(SPREAD)
    }
}

type Hashes = BuildHasherDefault<Folding>;

/// A map.
pub struct HashMap<K, V>(std::collections::HashMap<K, V, Hashes>);

impl<K: Eq + Hash, V> HashMap<K, V> {
    pub fn new(_alloc: Global) -> HashMap<K, V> {
        HashMap(Default::default())
    }

    pub fn len(&self) -> usize {
        self.0.len()
    }

    #[inline]
    pub fn get<Q: Eq + Hash + ?Sized>(&self, key: &Q) -> Option<&V>
    where
        K: Borrow<Q>,
    {
        self.0.get(key)
    }

    #[inline]
    pub fn get_mut<Q: Eq + Hash + ?Sized>(&mut self, key: &Q) -> Option<&mut V>
    where
        K: Borrow<Q>,
    {
        self.0.get_mut(key)
    }

    #[inline]
    pub fn contains_key<Q: Eq + Hash + ?Sized>(&self, key: &Q) -> bool
    where
        K: Borrow<Q>,
    {
        self.0.contains_key(key)
    }

    #[inline]
    pub fn insert(&mut self, key: K, value: V) -> Result<Option<V>, AllocFailed<(K, V)>> {
        Ok(self.0.insert(key, value))
    }

    #[inline]
    pub fn remove<Q: Eq + Hash + ?Sized>(&mut self, key: &Q) -> Option<V>
    where
        K: Borrow<Q>,
    {
        self.0.remove(key)
    }

    #[inline]
    pub fn entry(&mut self, key: K) -> Result<Entry<'_, K, V>, AllocFailed<K>> {
        Ok(self.0.entry(key))
    }

    /// The entries, in the order in which `retain` goes over them.
    pub fn iter(&self) -> Iter<'_, K, V> {
        self.0.iter()
    }

    pub fn retain(&mut self, keeps: impl FnMut(&K, &mut V) -> bool) {
        self.0.retain(keeps);
    }
}

impl<K: Debug, V: Debug> Debug for HashMap<K, V> {
    fn fmt(&self, f: &mut Formatter<'_>) -> Shown {
        self.0.fmt(f)
    }
}

/// A set.
pub struct HashSet<K>(std::collections::HashSet<K, Hashes>);

impl<K: Eq + Hash> HashSet<K> {
    pub fn new(_alloc: Global) -> HashSet<K> {
        HashSet(Default::default())
    }

    pub fn with_capacity(_alloc: Global, capacity: usize) -> Result<HashSet<K>, AllocError> {
        let mut made = HashSet(Default::default());
        made.0.reserve(capacity);
        Ok(made)
    }

    pub fn len(&self) -> usize {
        self.0.len()
    }

    #[inline]
    pub fn contains<Q: Eq + Hash + ?Sized>(&self, key: &Q) -> bool
    where
        K: Borrow<Q>,
    {
        self.0.contains(key)
    }

    #[inline]
    pub fn insert(&mut self, key: K) -> Result<bool, AllocFailed<K>> {
        Ok(self.0.insert(key))
    }

    #[inline]
    pub fn remove<Q: Eq + Hash + ?Sized>(&mut self, key: &Q) -> bool
    where
        K: Borrow<Q>,
    {
        self.0.remove(key)
    }
}

impl<K: Debug> Debug for HashSet<K> {
    fn fmt(&self, f: &mut Formatter<'_>) -> Shown {
        self.0.fmt(f)
    }
}
