//! The traits of Rust's library that an ordered map implements.

use super::OrderedMap;
use crate::fallible::out_of_memory;
use crate::traits::promised;
use core::hash::{BuildHasher, Hash};

impl<K: Eq + Hash, V, S: BuildHasher + Default> Default for OrderedMap<K, V, S> {
    /// Makes an empty map with the default hasher. Cost: `O(1)`, and no memory.
    ///
    /// ```
    /// # use jeerdurian::caches::OrderedMap;
    /// let map: OrderedMap<u64, u64, std::hash::RandomState> = OrderedMap::default();
    /// assert!(map.is_empty());
    /// ```
    fn default() -> Self {
        Self::with_hasher(S::default())
    }
}

/// Maps are equal if they have equal entries in the same order. Their hashers and tables may differ.
impl<K: Eq + Hash, V: PartialEq, S: BuildHasher> PartialEq for OrderedMap<K, V, S> {
    fn eq(&self, other: &Self) -> bool {
        self.map == other.map
    }
}

impl<K: Eq + Hash, V: Eq, S: BuildHasher> Eq for OrderedMap<K, V, S> {}

/// Shows the entries, oldest first, as `{1: 11, 2: 20}`.
impl<K: Eq + Hash + core::fmt::Debug, V: core::fmt::Debug, S: BuildHasher> core::fmt::Debug for OrderedMap<K, V, S> {
    fn fmt(&self, f: &mut core::fmt::Formatter<'_>) -> core::fmt::Result {
        self.map.fmt(f)
    }
}

impl<K: Eq + Hash + Clone, V: Clone, S: BuildHasher + Clone> Clone for OrderedMap<K, V, S> {
    /// Clones the entries, in order. If memory runs out, calls `handle_alloc_error`, which ends the program.
    ///
    /// ```
    /// # use jeerdurian::caches::OrderedMap;
    /// let map: OrderedMap<u64, u64> = [(1, 11), (2, 20)].into_iter().collect();
    /// assert_eq!(map.clone(), map);
    /// ```
    fn clone(&self) -> Self {
        OrderedMap { map: self.map.try_clone().unwrap_or_else(|_| out_of_memory::<K, V>()) }
    }
}

impl<K: Eq + Hash, V, S: BuildHasher> Extend<(K, V)> for OrderedMap<K, V, S> {
    /// Inserts each entry. If memory runs out, calls `handle_alloc_error`, which ends the program.
    ///
    /// First reserves growth for the entries that the iterator promises (`size_hint`), or for half of them if the map
    /// has entries. If the reservation fails, the table grows with the inserts.
    ///
    /// ```
    /// # use jeerdurian::caches::OrderedMap;
    /// let mut map: OrderedMap<u64, u64> = OrderedMap::new();
    /// map.extend([(1, 10), (2, 20), (1, 11)]);
    /// assert!(map.iter().eq([(&1, &11), (&2, &20)]));
    /// ```
    fn extend<I: IntoIterator<Item = (K, V)>>(&mut self, entries: I) {
        let entries = entries.into_iter();
        let _ = self.try_reserve(promised(&entries, self.is_empty()));
        for (key, value) in entries {
            self.insert(key, value).unwrap_or_else(|_| out_of_memory::<K, V>());
        }
    }
}

impl<K: Eq + Hash, V, S: BuildHasher + Default> FromIterator<(K, V)> for OrderedMap<K, V, S> {
    /// Makes a map of these entries, as [`extend`](OrderedMap::extend) does.
    ///
    /// ```
    /// # use jeerdurian::caches::OrderedMap;
    /// let map: OrderedMap<u64, u64> = [(1, 11), (2, 20)].into_iter().collect();
    /// assert!(map.keys().eq([&1, &2]));
    /// ```
    fn from_iter<I: IntoIterator<Item = (K, V)>>(entries: I) -> Self {
        let mut map = Self::default();
        map.extend(entries);
        map
    }
}

#[cfg(feature = "runtime-rng")]
impl<K: Eq + Hash, V, const N: usize> From<[(K, V); N]> for OrderedMap<K, V> {
    /// Makes a map of these entries, as [`extend`](OrderedMap::extend) does.
    ///
    /// ```
    /// # use jeerdurian::caches::OrderedMap;
    /// let map = OrderedMap::from([(1, 11), (2, 20)]);
    /// assert!(map.keys().eq([&1, &2]));
    /// ```
    fn from(entries: [(K, V); N]) -> Self {
        entries.into_iter().collect()
    }
}
