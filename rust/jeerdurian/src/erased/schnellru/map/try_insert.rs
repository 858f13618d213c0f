// Erased from crates/schnellru/src/map/try_insert.rt: do not edit.
#[allow(unused_imports)]
use crate::rattle_std::prelude::*;

use crate::erased::lru_limits::{Admission, KeyHasher};
use crate::erased::schnellru::map::LruMap;
use crate::erased::schnellru::map::remove::discard;
use crate::rattle_std::hash::Hash;

impl<K: Eq + Hash, V, L: Admission<K, V> + Copy, S: KeyHasher<K>> LruMap<K, V, L, S> {
    /// Inserts a new key with its value, as the newest entry, without an eviction.
    ///
    /// If no growth is left, `try_insert` reserves growth instead of filling a deleted bucket. So if the limiter
    /// refuses a larger table, `try_insert` may return an entry that `insert` would store without an eviction.
    ///
    /// Cost: `O(1)` expected, amortised over the inserts, with one search for the key. If no growth is left, the call
    /// also costs as much as `try_reserve(1)`. `move_report` does not count the entries that the reservation moves.
    ///
    /// # Errors
    ///
    /// Returns the key and the value, for one of five reasons. A caller can recognise only the first reason, by
    /// `contains`:
    ///
    /// - The key is there.
    /// - The limiter rejects the entry, before or after the table grew.
    /// - The limiter would be over its limit with the entry, before or after the table grew.
    /// - No growth is left, and either there is no larger table, or the limiter refuses the larger table.
    /// - No growth is left, and the allocation of the table fails.
    ///
    /// If growth was left, nothing has changed. If no growth was left, the table may be larger or rehashed, and
    /// `on_grow` may have changed the limiter.
    ///
    /// Follows std's `HashMap::try_insert`.
    pub fn try_insert(&mut self, key: K, value: V) -> Result<(), (K, V)> {
        let hash = self.hasher.hash_named(&key);
        self.try_insert_hashed(hash, key, value)
    }

    /// Does what `try_insert` does, but gets the hash of the key from the caller, as `insert_hashed` does.
    ///
    /// Cost: as `try_insert`, without hashing.
    ///
    /// # Errors
    ///
    /// Fails as `try_insert` does.
    ///
    /// Follows `RawEntryMut::insert_hashed_nocheck` of the crate `hashlink`.
    pub fn try_insert_hashed(&mut self, hash: u64, key: K, value: V) -> Result<(), (K, V)> {
        self.show_map();
        let inserted = self.try_insert_if_absent(hash, key, value);
        self.show_map();
        inserted
    }

    fn try_insert_if_absent(&mut self, hash: u64, key: K, value: V) -> Result<(), (K, V)> {
        match self.find_hashed(hash, &key) {
            Some(_) => Err((key, value)),
            None => self.try_insert_new(hash, key, value),
        }
    }

    fn try_insert_new(&mut self, hash: u64, key: K, value: V) -> Result<(), (K, V)> {
        if !self.can_store(&key, &value) {
            return Err((key, value));
        }
        if !self.get_ready_for(&key, &value) {
            return Err((key, value));
        }
        self.add(hash, key, value);
        Ok(())
    }

    fn get_ready_for(&mut self, key: &K, value: &V) -> bool {
        if self.growth_left() > 0 {
            return true;
        }
        match self.try_reserve(1) {
            Ok(()) => self.can_store(key, value),
            Err(_) => false,
        }
    }

    fn can_store(&self, key: &K, value: &V) -> bool {
        let length = self.entries.len();
        let mut limiter = self.limiter;
        if !limiter.admit(length, key, value) {
            return false;
        }
        !limiter.is_over_the_limit(length + 1)
    }

    fn add(&mut self, hash: u64, key: K, value: V) {
        let _ = self.insert_new(hash, key, value, &mut discard);
    }
}
