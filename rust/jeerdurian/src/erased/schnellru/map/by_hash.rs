// Erased from crates/schnellru/src/map/by_hash.rt: do not edit.
//! Searches by a hash, with a closure that recognises the entry.

#[allow(unused_imports)]
use crate::rattle_std::prelude::*;

use crate::erased::lru_limits::{KeyHasher, Limiter};
use crate::erased::schnellru::map::LruMap;
use crate::rattle_std::hash::Hash;

impl<K: Eq + Hash, V, L: Limiter<K, V>, S: KeyHasher<K>> LruMap<K, V, L, S> {
    /// Searches for an entry that `is_eq` accepts, lends its value for writing, and makes the entry the newest.
    ///
    /// `is_eq` gets only entries whose hashes agree with `hash` in the top 7 bits. It has to compare keys, because the
    /// hashes of other keys may agree, too. Tests, but no proof, show that `is_eq` gets each entry at most once, and is
    /// not called again after it returned true. If the result is `None`, `is_eq` rejected each entry with this hash,
    /// and nothing has changed. `map.hasher().hash_named(&key)` returns the hash of a key.
    ///
    /// Cost: `O(1)` expected, including the calls of `is_eq`.
    ///
    /// Follows schnellru's `LruMap::get_by_hash`.
    #[inline]
    pub fn get_by_hash<F: FnMut(&K, &V) -> bool>(&mut self, hash: u64, is_eq: F) -> Option<&mut V> {
        let b = self.find_by(hash, is_eq)?;
        self.promote_at(b);
        Some(self.value_in_mut(b))
    }

    /// Searches as `get_by_hash` does, and returns the value. The order stays.
    ///
    /// Cost: as `get_by_hash`.
    ///
    /// Follows schnellru's `LruMap::peek_by_hash`.
    #[inline]
    pub fn peek_by_hash<F: FnMut(&K, &V) -> bool>(&self, hash: u64, is_eq: F) -> Option<&V> {
        let b = self.find_by(hash, is_eq)?;
        Some(self.pair_in(b).1)
    }

    /// Searches as `get_by_hash` does, and lends the value for writing. The order stays.
    ///
    /// Cost: as `get_by_hash`.
    ///
    /// Follows schnellru's `LruMap::peek_by_hash_mut`.
    #[inline]
    pub fn peek_by_hash_mut<F: FnMut(&K, &V) -> bool>(&mut self, hash: u64, is_eq: F) -> Option<&mut V> {
        let b = self.find_by(hash, is_eq)?;
        Some(self.value_in_mut(b))
    }

    #[inline]
    pub(super) fn find_by<F: FnMut(&K, &V) -> bool>(&self, hash: u64, is_eq: F) -> Option<usize> {
        self.entries.find_by(hash, is_eq)
    }
}
