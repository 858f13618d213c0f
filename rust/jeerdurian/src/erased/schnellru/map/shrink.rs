// Erased from crates/schnellru/src/map/shrink.rt: do not edit.
#[allow(unused_imports)]
use crate::rattle_std::prelude::*;

use crate::erased::group_table::{LinkType, buckets_for_capacity};
use crate::erased::lru_limits::{KeyHasher, Limiter};
use crate::erased::schnellru::map::LruMap;
use crate::rattle_std::alloc::AllocError;
use crate::rattle_std::hash::Hash;

impl<K: Eq + Hash, V, L: Limiter<K, V>, S: KeyHasher<K>> LruMap<K, V, L, S> {
    /// Shrinks the table to the fewest buckets that hold the entries. Returns whether the table became smaller.
    ///
    /// The entries and their order stay. The limiter is not called. An empty map frees its table.
    ///
    /// Cost: `O(1)` if the table stays, else `O(buckets)` and three allocations. An empty map allocates nothing.
    ///
    /// # Errors
    ///
    /// The map ran out of memory. Nothing has changed.
    pub fn shrink_to_fit(&mut self) -> Result<bool, AllocError> {
        let len = self.entries.len();
        let count = match buckets_for_capacity(len, L::LinkType::MAX.into_usize()) {
            Some(count) => count,
            None => return Ok(false),
        };
        if self.entries.buckets() <= count {
            return Ok(false);
        }
        if_unwound(self, Self::abandon, |map| map.entries.move_to(count, &map.hasher))?;
        self.shrunk = self.shrunk.saturating_add(len as u64);
        Ok(true)
    }
}
