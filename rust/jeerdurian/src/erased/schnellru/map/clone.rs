// Erased from crates/schnellru/src/map/clone.rt: do not edit.
#[allow(unused_imports)]
use crate::rattle_std::prelude::*;

use crate::erased::lru_limits::{KeyHasher, Limiter};
use crate::erased::schnellru::map::LruMap;
use crate::rattle_std::alloc::AllocError;
use crate::rattle_std::hash::Hash;

impl<K: TryClone, V: TryClone, L: Limiter<K, V> + TryClone, S: TryClone> LruMap<K, V, L, S> {
    /// Clones the limiter, the hasher, and the entries in their order. The clone has the same bucket states and counts.
    ///
    /// A clone of a key must equal the key, and a clone of the hasher must return the same hashes. Cost: `O(buckets)`,
    /// plus what the clones of keys, values, limiter and hasher allocate, plus two allocations if the map has buckets.
    ///
    /// # Errors
    ///
    /// Out of memory, or a clone failed. The entries cloned so far are dropped.
    ///
    /// Follows schnellru's `LruMap::clone`.
    pub fn try_clone(&self) -> Result<Self, AllocError> {
        let entries = self.entries.copy()?;
        let hasher = self.hasher.try_clone()?;
        let limiter = self.limiter.try_clone()?;
        Ok(LruMap {
            entries,
            limiter,
            hasher,
            entry_bytes: self.entry_bytes,
            moved: self.moved,
            shrunk: self.shrunk,
            alloc: self.alloc,
        })
    }
}
