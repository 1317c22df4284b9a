//! Maps and sets that keep the order in which keys came, as the crate `indexmap` has them.

use plain_std::alloc::{AllocError, AllocFailed, Global};
use plain_std::collections::Folding;
use std::borrow::Borrow;
use std::collections::HashMap;
use std::fmt::{Debug, Formatter, Result as Shown};
use std::hash::{BuildHasherDefault, Hash, Hasher};

/// A map.
pub struct IndexMap<K, V> {
    entries: Vec<(K, V)>,
    /// For the hash of each key the places of the keys that have it.
    places: HashMap<u64, Vec<usize>, BuildHasherDefault<Folding>>,
}

fn hash_of<Q: Hash + ?Sized>(key: &Q) -> u64 {
    let mut hasher = Folding::default();
    key.hash(&mut hasher);
    hasher.finish()
}

impl<K: Eq + Hash, V> IndexMap<K, V> {
    pub fn new(_alloc: Global) -> IndexMap<K, V> {
        IndexMap {
            entries: Vec::new(),
            places: HashMap::default(),
        }
    }

    pub fn with_capacity(alloc: Global, capacity: usize) -> Result<IndexMap<K, V>, AllocError> {
        let mut made = IndexMap::new(alloc);
        made.entries.reserve(capacity);
        Ok(made)
    }

    pub fn len(&self) -> usize {
        self.entries.len()
    }

    pub fn is_empty(&self) -> bool {
        self.entries.is_empty()
    }

    pub fn get_index_of<Q: Eq + Hash + ?Sized>(&self, key: &Q) -> Option<usize>
    where
        K: Borrow<Q>,
    {
        let places = self.places.get(&hash_of(key))?;
        let is_key = |place: &&usize| self.entries[**place].0.borrow() == key;
        places.iter().find(is_key).copied()
    }

    pub fn contains_key<Q: Eq + Hash + ?Sized>(&self, key: &Q) -> bool
    where
        K: Borrow<Q>,
    {
        self.get_index_of(key).is_some()
    }

    pub fn get<Q: Eq + Hash + ?Sized>(&self, key: &Q) -> Option<&V>
    where
        K: Borrow<Q>,
    {
        let place = self.get_index_of(key)?;
        Some(&self.entries[place].1)
    }

    pub fn get_mut<Q: Eq + Hash + ?Sized>(&mut self, key: &Q) -> Option<&mut V>
    where
        K: Borrow<Q>,
    {
        let place = self.get_index_of(key)?;
        Some(&mut self.entries[place].1)
    }

    pub fn get_index(&self, index: usize) -> Option<(&K, &V)> {
        self.entries.get(index).map(|entry| (&entry.0, &entry.1))
    }

    pub fn insert(&mut self, key: K, value: V) -> Result<Option<V>, AllocFailed<(K, V)>> {
        if let Some(known) = self.get_mut(&key) {
            return Ok(Some(std::mem::replace(known, value)));
        }
        let places = self.places.entry(hash_of(&key)).or_default();
        places.push(self.entries.len());
        self.entries.push((key, value));
        Ok(None)
    }

    pub fn entry(&mut self, key: K) -> Result<Entry<'_, K, V>, AllocFailed<K>> {
        Ok(Entry { map: self, key })
    }

    pub fn iter(&self) -> impl Iterator<Item = (&K, &V)> {
        self.entries.iter().map(|entry| (&entry.0, &entry.1))
    }

    pub fn keys(&self) -> impl Iterator<Item = &K> {
        self.entries.iter().map(|entry| &entry.0)
    }

    pub fn values(&self) -> impl Iterator<Item = &V> {
        self.entries.iter().map(|entry| &entry.1)
    }
}

impl<K: Debug, V: Debug> Debug for IndexMap<K, V> {
    fn fmt(&self, f: &mut Formatter<'_>) -> Shown {
        self.entries.fmt(f)
    }
}

/// The place of a key, which is there or not.
pub struct Entry<'a, K, V> {
    map: &'a mut IndexMap<K, V>,
    key: K,
}

impl<'a, K: Eq + Hash, V> Entry<'a, K, V> {
    pub fn or_insert(self, default: V) -> &'a mut V {
        let place = match self.map.get_index_of(&self.key) {
            Some(place) => place,
            None => {
                let _ = self.map.insert(self.key, default);
                self.map.len() - 1
            }
        };
        &mut self.map.entries[place].1
    }
}

/// A set.
pub struct IndexSet<T> {
    items: IndexMap<T, ()>,
}

impl<T: Eq + Hash> IndexSet<T> {
    pub fn new(alloc: Global) -> IndexSet<T> {
        IndexSet {
            items: IndexMap::new(alloc),
        }
    }

    pub fn with_capacity(alloc: Global, capacity: usize) -> Result<IndexSet<T>, AllocError> {
        let items = IndexMap::with_capacity(alloc, capacity)?;
        Ok(IndexSet { items })
    }

    pub fn len(&self) -> usize {
        self.items.len()
    }

    pub fn is_empty(&self) -> bool {
        self.items.is_empty()
    }

    pub fn contains<Q: Eq + Hash + ?Sized>(&self, item: &Q) -> bool
    where
        T: Borrow<Q>,
    {
        self.items.contains_key(item)
    }

    pub fn get_index_of<Q: Eq + Hash + ?Sized>(&self, item: &Q) -> Option<usize>
    where
        T: Borrow<Q>,
    {
        self.items.get_index_of(item)
    }

    pub fn get_index(&self, index: usize) -> Option<&T> {
        self.items.get_index(index).map(|entry| entry.0)
    }

    pub fn insert(&mut self, item: T) -> Result<bool, AllocFailed<T>> {
        let is_new = !self.items.contains_key(&item);
        if is_new {
            let _ = self.items.insert(item, ());
        }
        Ok(is_new)
    }

    pub fn iter(&self) -> impl Iterator<Item = &T> {
        self.items.keys()
    }
}

impl<T: Debug> Debug for IndexSet<T> {
    fn fmt(&self, f: &mut Formatter<'_>) -> Shown {
        self.items.fmt(f)
    }
}
