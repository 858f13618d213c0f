// Erased from crates/lru_caches/src/counted.rt: do not edit.
//! `CountedMap`. Contracts represent it by its map and its counts.

#[allow(unused_imports)]
use crate::rattle_std::prelude::*;

use crate::erased::schnellru::{Inserted, Insertion, KeyHasher, Limiter, LookupKey, LruMap, RandomState};
use crate::rattle_std::alloc::AllocError;
use crate::rattle_std::hash::Hash;

/// The counts of a cache. Each count stops at `u64::MAX`.
///
/// A call counts only if its documentation says so.
#[derive(Clone, Copy, Debug, Default, PartialEq, Eq)]
pub struct Counts {
    /// How many look-ups found their key.
    pub hits: u64,
    /// How many look-ups did not find their key.
    pub misses: u64,
    /// The number of inserts that left their key in the map.
    pub insertions: u64,
    /// The number of inserts that did not leave their key in the map, because the limiter rejected the entry, no table
    /// could hold the entry, or the entry was evicted at once. An insert that runs out of memory counts neither as an
    /// insertion nor as a rejection.
    pub rejections: u64,
    /// The number of entries that were evicted by inserts of other keys.
    pub evictions: u64,
}

impl Counts {
    /// Counts a look-up.
    pub fn count_look_up(&mut self, found: bool) {
        if found {
            self.hits = self.hits.saturating_add(1);
        } else {
            self.misses = self.misses.saturating_add(1);
        }
    }

    /// Counts an insert with this result, and the entries that the insert evicted.
    pub fn count_insert<E>(&mut self, done: &Result<bool, E>, evicted: u64) {
        self.evictions = self.evictions.saturating_add(evicted);
        match done {
            Ok(true) => self.insertions = self.insertions.saturating_add(1),
            Ok(false) => self.rejections = self.rejections.saturating_add(1),
            Err(_) => {}
        }
    }
}

/// A map that counts its look-ups and its inserts.

pub struct CountedMap<K, V, L: Limiter<K, V>, S = RandomState> {
    map: LruMap<K, V, L, S>,
    counts: Counts,
}

impl<K: Eq + Hash, V, L: Limiter<K, V>, S: KeyHasher<K>> CountedMap<K, V, L, S> {
    /// Takes a map, and counts its look-ups and inserts from now on.
    ///
    /// Cost: `O(1)`.
    pub fn new(map: LruMap<K, V, L, S>) -> Self {
        CountedMap { map, counts: Counts::default() }
    }

    /// Returns the counts.
    ///
    /// Cost: `O(1)`.
    pub fn counts(&self) -> Counts {
        self.counts
    }

    /// Returns the counts, and sets them to zeros.
    ///
    /// Cost: `O(1)`.
    pub fn take_counts(&mut self) -> Counts {
        let counts = self.counts;
        self.counts = Counts::default();
        counts
    }

    /// Returns the map. Calls on it are not counted.
    ///
    /// Cost: `O(1)`.
    pub fn map(&self) -> &LruMap<K, V, L, S> {
        &self.map
    }

    /// Returns the map, and drops the counts.
    ///
    /// Cost: `O(1)`.
    pub fn into_map(self) -> LruMap<K, V, L, S> {
        let CountedMap { map, counts: _ } = self;
        map
    }

    /// Makes the entry of a key the newest, and counts a hit. If the key is not there, counts a miss. Returns whether
    /// the key is there. If the key is there, `map().peek_newest()` returns the key's entry.
    ///
    /// Cost: as `LruMap::promote`.
    pub fn promote<Q: LookupKey<K>>(&mut self, key: &Q) -> bool {
        let there = self.map.promote(key);
        self.counts.count_look_up(there);
        there
    }
}

impl<K: Eq + Hash, V: Copy, L: Limiter<K, V>, S: KeyHasher<K>> CountedMap<K, V, L, S> {
    /// Does what `promote` does, and returns the value of the key.
    ///
    /// Cost: as `LruMap::get`.
    pub fn get<Q: LookupKey<K>>(&mut self, key: &Q) -> Option<V> {
        let value = get(&mut self.map, key);
        self.counts.count_look_up(value.is_some());
        value
    }
}

impl<K: Eq + Hash, V, L: Limiter<K, V>, S: KeyHasher<K>> CountedMap<K, V, L, S> {
    /// Does what `LruMap::insert` does, and counts the insert.
    ///
    /// Cost: as `LruMap::insert`.
    ///
    /// # Errors
    ///
    /// As `LruMap::insert`. The evicted entries are counted.
    pub fn insert<I: LookupKey<K>>(&mut self, key: I, value: V) -> Result<bool, AllocError>
    where
        L: Insertion<K, V, I>,
    {
        let before = self.map.len();
        let (was_there, is_there, done) = insert_full(&mut self.map, key, value);
        let others = before - was_there as usize;
        let evicted = others.saturating_sub(self.map.len() - is_there as usize);
        self.counts.count_insert(&done, evicted as u64);
        done
    }

    /// Does what `LruMap::remove` does. A removal is not counted.
    ///
    /// Cost: as `LruMap::remove`.
    pub fn remove<Q: LookupKey<K>>(&mut self, key: &Q) -> Option<V> {
        self.map.remove(key)
    }
}

fn get<K: Eq + Hash, V: Copy, Q: LookupKey<K>, L: Limiter<K, V>, S: KeyHasher<K>>(
    map: &mut LruMap<K, V, L, S>,
    key: &Q,
) -> Option<V> {
    let _len = map.len();
    match map.get(key) {
        Some(value) => Some(*value),
        None => None,
    }
}

// Returns whether the key was there before the insert, whether the key is there now, and the result of the insert.
fn insert_full<K: Eq + Hash, V, I: LookupKey<K>, L: Insertion<K, V, I>, S: KeyHasher<K>>(
    map: &mut LruMap<K, V, L, S>,
    key: I,
    value: V,
) -> (bool, bool, Result<bool, AllocError>) {
    match map.insert_full(key, value, &mut |_, _| {}) {
        Ok(Inserted { kept, unkept }) => (unkept.is_some(), kept, Ok(kept)),
        Err(error) => (false, false, Err(error)),
    }
}
