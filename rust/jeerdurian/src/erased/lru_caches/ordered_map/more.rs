// Erased from crates/lru_caches/src/ordered_map/more.rt: do not edit.
#[allow(unused_imports)]
use crate::rattle_std::prelude::*;

use crate::erased::lru_caches::ordered_map::{OrderedMap, distinct};
use crate::erased::schnellru::{KeyHasher, LookupKey, ReserveError};
use crate::rattle_std::alloc::AllocError;
use crate::rattle_std::hash::Hash;

impl<K: Eq + Hash, V, S: KeyHasher<K>> OrderedMap<K, V, S> {
    /// Returns the entry of a key, with the stored key.
    ///
    /// Cost: `O(1)` expected.
    pub fn get_key_value<Q: LookupKey<K>>(&self, key: &Q) -> Option<(&K, &V)> {
        distinct(&self.map);
        self.map.peek_key_value(key)
    }

    /// Makes the entry of a key the newest, and returns whether the key is there.
    ///
    /// Cost: `O(1)` expected.
    ///
    /// Follows linked_hash_map's `LinkedHashMap::get_refresh`, which also lends the value.
    pub fn move_to_back<Q: LookupKey<K>>(&mut self, key: &Q) -> bool {
        distinct(&self.map);
        self.map.promote(key)
    }

    /// Reserves memory for n more entries.
    ///
    /// Cost: `O(1)` if there is enough growth left, else `O(old buckets + new buckets)`.
    ///
    /// # Errors
    ///
    /// As `LruMap::try_reserve`.
    pub fn try_reserve(&mut self, n: usize) -> Result<(), ReserveError> {
        self.map.try_reserve(n)
    }

    /// Shrinks the table to the smallest that can hold the entries. Returns whether the table was larger.
    ///
    /// Cost: `O(1)` if the table stays, else `O(buckets)`.
    ///
    /// # Errors
    ///
    /// Out of memory.
    pub fn shrink_to_fit(&mut self) -> Result<bool, AllocError> {
        self.map.shrink_to_fit()
    }
}
