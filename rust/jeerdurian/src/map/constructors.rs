//! How a `LruMap` is made.

use super::LruMap;
use crate::ByMemoryUsage;
use crate::erased::ordered_table::OrderedTable;
use crate::erased::schnellru as proved;
use crate::hasher::RandomState;
use crate::limiter::{Calls, Limiter};
use crate::rattle_std::alloc::Global;
use core::hash::{BuildHasher, Hash};

impl<K, V, L> LruMap<K, V, L, RandomState>
where
    K: Hash + PartialEq,
    L: Limiter<K, V>,
{
    /// Makes an empty map with this limiter and a hasher with random seeds. Proved: the map has no entries and no
    /// buckets. Cost: `O(1)`, and no memory.
    ///
    /// ```
    /// # use jeerdurian::{ByLength, LruMap};
    /// let map: LruMap<u64, &str> = LruMap::new(ByLength::new(3));
    /// assert!(map.is_empty());
    /// ```
    #[cfg(feature = "runtime-rng")]
    pub fn new(limiter: L) -> Self {
        Self::with_hasher(limiter, RandomState::default())
    }

    /// Makes an empty map with this limiter and a hasher with these seeds. Equal seeds give equal hashes. Proved: the
    /// map has no entry and no buckets. Cost: `O(1)`, and no memory.
    pub const fn with_seed(limiter: L, seed: [u64; 4]) -> Self {
        Self::with_hasher(limiter, RandomState::with_seeds(seed))
    }
}

impl<K, V, S> LruMap<K, V, ByMemoryUsage, S>
where
    K: Hash + PartialEq,
    S: BuildHasher,
{
    /// Makes an empty map whose table uses at most `memory_budget` bytes, with this hasher.
    ///
    /// Proved: `memory_usage` stays within the budget while the limiter is not changed. It counts the table, not what
    /// keys and values own. Cost: `O(1)`, and no memory.
    pub const fn with_memory_budget_and_hasher(memory_budget: usize, hasher: S) -> Self {
        Self::with_hasher(ByMemoryUsage::new(memory_budget), hasher)
    }
}

impl<K, V> LruMap<K, V, ByMemoryUsage, RandomState>
where
    K: Hash + PartialEq,
{
    /// Makes an empty map whose table uses at most `memory_budget` bytes, with a hasher with random seeds. Proved: the
    /// same as for `with_memory_budget_and_hasher`. Cost: `O(1)`, and no memory.
    #[cfg(feature = "runtime-rng")]
    pub fn with_memory_budget(memory_budget: usize) -> Self {
        Self::with_memory_budget_and_hasher(memory_budget, RandomState::default())
    }
}

impl<K, V, L, S> LruMap<K, V, L, S>
where
    K: Hash + PartialEq,
    S: BuildHasher,
    L: Limiter<K, V>,
{
    /// Makes an empty map with this limiter and this hasher. Proved: the map has no entry and no buckets. Cost: `O(1)`,
    /// and no memory.
    ///
    /// ```
    /// use jeerdurian::{LruMap, UnlimitedCompact};
    /// use std::hash::{BuildHasherDefault, DefaultHasher};
    ///
    /// type Hasher = BuildHasherDefault<DefaultHasher>;
    /// static MAP: std::sync::Mutex<LruMap<u64, u64, UnlimitedCompact, Hasher>> =
    ///     std::sync::Mutex::new(LruMap::with_hasher(UnlimitedCompact, Hasher::new()));
    /// assert!(MAP.lock().unwrap().insert(1, 10));
    /// ```
    pub const fn with_hasher(limiter: L, hasher: S) -> Self {
        let entry_bytes = OrderedTable::<K, V, L::LinkType>::entry_bytes();
        LruMap { map: proved::LruMap::with_hasher(Global, Calls(limiter), hasher, entry_bytes) }
    }
}
