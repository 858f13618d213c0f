// Erased from crates/schnellru/src/map/entry.rt: do not edit.
#[allow(unused_imports)]
use crate::rattle_std::prelude::*;

use crate::erased::lru_limits::{KeyHasher, Limiter, LookupKey};
use crate::erased::schnellru::map::LruMap;
use crate::rattle_std::hash::Hash;

/// A handle on an entry that `find_entry` or `find_entry_by_hash` found. No call on the handle searches again.
///
/// Follows `OccupiedEntry` of std's `HashMap`.

pub struct OccupiedEntry<'a, K, V, L: Limiter<K, V>, S> {
    map: &'a mut LruMap<K, V, L, S>,
    bucket: usize,
}

impl<K: Eq + Hash, V, L: Limiter<K, V>, S: KeyHasher<K>> LruMap<K, V, L, S> {
    /// Searches for a key, and returns a handle on its entry. The order stays.
    ///
    /// Cost: `O(1)` expected.
    ///
    /// Follows `find_entry` of hashbrown's `HashTable`.
    #[inline]
    pub fn find_entry<Q: LookupKey<K>>(&mut self, key: &Q) -> Option<OccupiedEntry<'_, K, V, L, S>> {
        let bucket = self.find(key)?;
        Some(OccupiedEntry { map: self, bucket })
    }

    /// Searches as `get_by_hash` does, and returns a handle on the entry. The order stays.
    ///
    /// Cost: as `get_by_hash`.
    ///
    /// Follows `find_entry` of hashbrown's `HashTable`.
    #[inline]
    pub fn find_entry_by_hash<F: FnMut(&K, &V) -> bool>(
        &mut self,
        hash: u64,
        is_eq: F,
    ) -> Option<OccupiedEntry<'_, K, V, L, S>> {
        let bucket = self.find_by(hash, is_eq)?;
        Some(OccupiedEntry { map: self, bucket })
    }
}

impl<'a, K: Eq + Hash, V, L: Limiter<K, V>, S: KeyHasher<K>> OccupiedEntry<'a, K, V, L, S> {
    /// Returns the stored key, not the equal key that was looked up.
    ///
    /// Cost: `O(1)`.
    #[inline]
    pub fn key(&self) -> &K {
        self.map.pair_in(self.bucket).0
    }

    /// Returns the value.
    ///
    /// Cost: `O(1)`.
    #[inline]
    pub fn get(&self) -> &V {
        self.map.pair_in(self.bucket).1
    }

    /// Lends the value for writing. The order stays.
    ///
    /// Cost: `O(1)`.
    #[inline]
    pub fn get_mut(&mut self) -> &mut V {
        let bucket = self.bucket;
        self.map.value_in_mut(bucket)
    }

    /// Lends the value for writing, until the loan of the map ends. The order stays.
    ///
    /// Cost: `O(1)`.
    #[inline]
    pub fn into_mut(self) -> &'a mut V {
        let OccupiedEntry { map, bucket } = self;
        map.value_in_mut(bucket)
    }

    /// Makes the entry the newest.
    ///
    /// Cost: `O(1)`.
    #[inline]
    pub fn promote(&mut self) {
        self.map.promote_at(self.bucket);
    }

    /// Makes the entry the oldest.
    ///
    /// Cost: `O(1)`.
    pub fn demote(&mut self) {
        self.map.demote_at(self.bucket);
    }

    /// Removes the entry. Returns the stored key and its value.
    ///
    /// Cost: `O(1)`.
    // In the contract, `self.exit.0` is the reference to the map.
    #[inline]
    pub fn remove_entry(self) -> (K, V) {
        let bucket = self.bucket;
        self.map.take_at(bucket)
    }
}
