//! Ordered maps: the standard library's, and one as a vector in the order of its keys.

use std::collections::{BTreeMap, TryReserveError, btree_map};

/// The place of a key that is there.
pub trait OccupiedEntry<V> {
    fn get(&self) -> &V;

    fn get_mut(&mut self) -> &mut V;

    fn set(&mut self, value: V) {
        *self.get_mut() = value;
    }

    fn remove(self) -> V;
}

/// The place where a key would go.
pub trait VacantEntry<V> {
    /// Makes room for one more, where the map has its memory at hand.
    fn reserve(&mut self) -> Result<(), TryReserveError>;

    fn insert(self, value: V);
}

/// The place of a key, by one search.
pub enum Entry<O, F> {
    Occupied(O),
    Vacant(F),
}

impl<O, F> Entry<O, F> {
    pub fn occupied(self) -> Option<O> {
        match self {
            Entry::Occupied(entry) => Some(entry),
            Entry::Vacant(_) => None,
        }
    }
}

/// A map in the order of its keys.
pub trait OrderedMap<K: Ord, V>: Default {
    type Occupied<'a>: OccupiedEntry<V>
    where
        Self: 'a;

    type Vacant<'a>: VacantEntry<V>
    where
        Self: 'a;

    fn get(&self, key: &K) -> Option<&V>;

    fn get_mut(&mut self, key: &K) -> Option<&mut V>;

    fn entry(&mut self, key: K) -> Entry<Self::Occupied<'_>, Self::Vacant<'_>>;

    /// Makes room for one more, where the map has its memory at hand.
    fn reserve(&mut self) -> Result<(), TryReserveError>;

    /// Sets the value of a key.
    fn insert(&mut self, key: K, value: V) -> Result<(), TryReserveError> {
        match self.entry(key) {
            Entry::Occupied(mut entry) => entry.set(value),
            Entry::Vacant(mut entry) => {
                entry.reserve()?;
                entry.insert(value);
            }
        }
        Ok(())
    }

    fn remove(&mut self, key: &K) -> Option<V>;

    fn clear(&mut self);

    fn len(&self) -> usize;

    fn iter<'a>(&'a self) -> impl Iterator<Item = (&'a K, &'a V)>
    where
        K: 'a,
        V: 'a;
}

impl<K: Ord, V> OccupiedEntry<V> for btree_map::OccupiedEntry<'_, K, V> {
    fn get(&self) -> &V {
        btree_map::OccupiedEntry::get(self)
    }

    fn get_mut(&mut self) -> &mut V {
        btree_map::OccupiedEntry::get_mut(self)
    }

    fn remove(self) -> V {
        btree_map::OccupiedEntry::remove(self)
    }
}

impl<K: Ord, V> VacantEntry<V> for btree_map::VacantEntry<'_, K, V> {
    fn reserve(&mut self) -> Result<(), TryReserveError> {
        Ok(())
    }

    fn insert(self, value: V) {
        btree_map::VacantEntry::insert(self, value);
    }
}

impl<K: Ord, V> OrderedMap<K, V> for BTreeMap<K, V> {
    type Occupied<'a>
        = btree_map::OccupiedEntry<'a, K, V>
    where
        Self: 'a;

    type Vacant<'a>
        = btree_map::VacantEntry<'a, K, V>
    where
        Self: 'a;

    fn get(&self, key: &K) -> Option<&V> {
        BTreeMap::get(self, key)
    }

    fn get_mut(&mut self, key: &K) -> Option<&mut V> {
        BTreeMap::get_mut(self, key)
    }

    fn entry(&mut self, key: K) -> Entry<Self::Occupied<'_>, Self::Vacant<'_>> {
        match BTreeMap::entry(self, key) {
            btree_map::Entry::Occupied(entry) => Entry::Occupied(entry),
            btree_map::Entry::Vacant(entry) => Entry::Vacant(entry),
        }
    }

    fn reserve(&mut self) -> Result<(), TryReserveError> {
        Ok(())
    }

    fn remove(&mut self, key: &K) -> Option<V> {
        BTreeMap::remove(self, key)
    }

    fn clear(&mut self) {
        BTreeMap::clear(self);
    }

    fn len(&self) -> usize {
        BTreeMap::len(self)
    }

    fn iter<'a>(&'a self) -> impl Iterator<Item = (&'a K, &'a V)>
    where
        K: 'a,
        V: 'a,
    {
        BTreeMap::iter(self)
    }
}

/// The entries in the order of their keys, each key once.
pub struct SortedVec<K, V> {
    entries: Vec<(K, V)>,
}

impl<K, V> Default for SortedVec<K, V> {
    fn default() -> Self {
        SortedVec {
            entries: Vec::new(),
        }
    }
}

impl<K: Ord, V> SortedVec<K, V> {
    fn search(&self, key: &K) -> Result<usize, usize> {
        self.entries.binary_search_by(|entry| entry.0.cmp(key))
    }
}

/// The place of a key in a sorted vector, where it stands or would go.
pub struct Place<'a, K, V> {
    entries: &'a mut Vec<(K, V)>,
    at: usize,
}

/// The place of a key that isn't there, with the key.
pub struct Gap<'a, K, V> {
    place: Place<'a, K, V>,
    key: K,
}

impl<K, V> OccupiedEntry<V> for Place<'_, K, V> {
    fn get(&self) -> &V {
        &self.entries[self.at].1
    }

    fn get_mut(&mut self) -> &mut V {
        &mut self.entries[self.at].1
    }

    fn remove(self) -> V {
        self.entries.remove(self.at).1
    }
}

impl<K, V> VacantEntry<V> for Gap<'_, K, V> {
    fn reserve(&mut self) -> Result<(), TryReserveError> {
        self.place.entries.try_reserve(1)
    }

    fn insert(self, value: V) {
        self.place.entries.insert(self.place.at, (self.key, value));
    }
}

impl<K: Ord, V> OrderedMap<K, V> for SortedVec<K, V> {
    type Occupied<'a>
        = Place<'a, K, V>
    where
        Self: 'a;

    type Vacant<'a>
        = Gap<'a, K, V>
    where
        Self: 'a;

    fn get(&self, key: &K) -> Option<&V> {
        self.search(key).ok().map(|at| &self.entries[at].1)
    }

    fn get_mut(&mut self, key: &K) -> Option<&mut V> {
        self.search(key).ok().map(|at| &mut self.entries[at].1)
    }

    fn entry(&mut self, key: K) -> Entry<Self::Occupied<'_>, Self::Vacant<'_>> {
        let found = self.search(&key);
        let entries = &mut self.entries;
        match found {
            Ok(at) => Entry::Occupied(Place { entries, at }),
            Err(at) => Entry::Vacant(Gap {
                place: Place { entries, at },
                key,
            }),
        }
    }

    fn reserve(&mut self) -> Result<(), TryReserveError> {
        self.entries.try_reserve(1)
    }

    fn remove(&mut self, key: &K) -> Option<V> {
        self.search(key).ok().map(|at| self.entries.remove(at).1)
    }

    fn clear(&mut self) {
        self.entries.clear();
    }

    fn len(&self) -> usize {
        self.entries.len()
    }

    fn iter<'a>(&'a self) -> impl Iterator<Item = (&'a K, &'a V)>
    where
        K: 'a,
        V: 'a,
    {
        self.entries.iter().map(|(key, value)| (key, value))
    }
}

/// Which map a table is made of.
pub trait Maps {
    type Map<K: Ord, V>: OrderedMap<K, V>;
}

/// Tables of the standard library's ordered maps.
pub struct Trees;

impl Maps for Trees {
    type Map<K: Ord, V> = BTreeMap<K, V>;
}

/// Tables of sorted vectors.
pub struct SortedVecs;

impl Maps for SortedVecs {
    type Map<K: Ord, V> = SortedVec<K, V>;
}
