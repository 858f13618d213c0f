// Erased from crates/schnellru/src/map/figures.rt: do not edit.
//! The length, the capacity, the memory, the limiter and the hasher of a map.

#[allow(unused_imports)]
use crate::rattle_std::prelude::*;

use crate::erased::group_table::LinkType;
use crate::erased::lru_limits::{KeyHasher, Limiter};
use crate::erased::lru_model::sizes;
use crate::erased::schnellru::map::LruMap;
use crate::rattle_std::fmt;
use crate::rattle_std::hash::Hash;

impl<K: Eq + Hash, V, L: Limiter<K, V>, S: KeyHasher<K>> LruMap<K, V, L, S> {
    /// Returns the number of entries. Cost: `O(1)`.
    ///
    /// Follows schnellru's `LruMap::len`.
    #[inline]
    pub fn len(&self) -> usize {
        self.entries.len()
    }

    // Only for the prover.
    #[inline(always)]
    pub(crate) fn show_map(&self) {
        let _ = &self.entries;
    }

    /// Returns whether the map is empty. Cost: `O(1)`.
    ///
    /// Follows schnellru's `LruMap::is_empty`.
    #[inline]
    pub fn is_empty(&self) -> bool {
        self.entries.len() == 0
    }

    /// Returns the number of entries that the table can surely hold without growing: `len` plus the growth left.
    ///
    /// This capacity may fall when an entry is removed from a table of more than 16 buckets. Cost: `O(1)`.
    ///
    /// Follows schnellru's `LruMap::guaranteed_capacity`.
    pub fn guaranteed_capacity(&self) -> usize {
        self.entries.len() + self.entries.growth_left()
    }

    /// Returns the number of bytes of the table, or 0 if it has no buckets. For n buckets, the number is
    /// `n * entry_bytes` rounded up to a multiple of 16, plus n, plus 16.
    ///
    /// Cost: `O(1)`.
    ///
    /// Follows schnellru's `LruMap::memory_usage`.
    pub fn memory_usage(&self) -> usize {
        let buckets = self.bucket_count();
        if buckets == 0 {
            return 0;
        }
        sizes::bytes_of(self.entry_bytes, buckets)
    }

    /// Returns the greatest `memory_usage` within a budget, if an entry has `entry_bytes` bytes. Returns 0 if no table
    /// fits.
    ///
    /// Cost: at most 62 steps.
    ///
    /// Follows schnellru's `LruMap::memory_usage_for_memory_budget`.
    pub fn memory_usage_for_memory_budget(budget: usize, entry_bytes: usize) -> usize {
        sizes::usage_within(L::LinkType::MAX.into_usize(), entry_bytes, budget)
    }

    /// Returns the limiter. Cost: `O(1)`.
    ///
    /// Follows schnellru's `LruMap::limiter`.
    pub fn limiter(&self) -> &L {
        &self.limiter
    }

    /// Returns the hasher of the map. `map.hasher().hash_named(&key)` returns the hash of a key. Cost: `O(1)`.
    ///
    /// Follows std's `HashMap::hasher`.
    pub fn hasher(&self) -> &S {
        &self.hasher
    }

    /// Lends the limiter for writing. A lower limit takes effect at the next `trim`, or at the next insert or update
    /// that the limiter accepts. A lower limit of `ByMemoryUsage` takes effect at the next growth.
    ///
    /// Do not assign a limiter with another running total. After `*map.limiter_mut() = ByCost::new(n)`, the limiter
    /// would count the stored entries as 0. To change the limit, call `set_limiter` with `map.limiter().with_limit(n)`.
    ///
    /// Cost: `O(1)`.
    ///
    /// Follows schnellru's `LruMap::limiter_mut`.
    pub fn limiter_mut(&mut self) -> &mut L {
        &mut self.limiter
    }
}

impl<K: Eq + Hash, V, L: Limiter<K, V>, S: KeyHasher<K>> LruMap<K, V, L, S> {
    #[inline]
    pub(super) fn bucket_count(&self) -> usize {
        self.entries.buckets()
    }

    #[inline]
    pub(super) fn growth_left(&self) -> usize {
        self.entries.growth_left()
    }

    #[inline]
    pub(super) fn is_over_the_limit(&self) -> bool {
        self.limiter.is_over_the_limit(self.entries.len())
    }
}

/// Shows only the number of entries, as `LruMap { len: 3, .. }`.
impl<K: Eq + Hash, V, L: Limiter<K, V>, S: KeyHasher<K>> fmt::Debug for LruMap<K, V, L, S> {
    fn fmt(&self, f: &mut fmt::Formatter<'_>) -> fmt::Result {
        let len = self.len();
        f.debug_struct("LruMap").field("len", &len).finish_non_exhaustive()
    }
}
