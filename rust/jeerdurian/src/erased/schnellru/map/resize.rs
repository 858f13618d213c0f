// Erased from crates/schnellru/src/map/resize.rt: do not edit.
//! Moves all entries to a larger table, or rehashes the table.

#[allow(unused_imports)]
use crate::rattle_std::prelude::*;

use crate::erased::group_table::LinkType;
use crate::erased::lru_limits::{KeyHasher, Limiter};
use crate::erased::lru_model::sizes::larger_table;
use crate::erased::schnellru::map::LruMap;
use crate::rattle_std::alloc::AllocError;
use crate::rattle_std::hash::Hash;

impl<K: Eq + Hash, V, L: Limiter<K, V>, S: KeyHasher<K>> LruMap<K, V, L, S> {
    pub(super) fn next_table(&self, more: usize) -> Option<(usize, usize)> {
        let max = L::LinkType::MAX.into_usize();
        let pairs = self.len() + more;
        larger_table(max, self.entry_bytes, self.bucket_count(), pairs)
    }

    pub(super) fn move_to(&mut self, count: usize) -> Result<(), AllocError> {
        if_unwound(self, Self::abandon, |map| map.entries.move_to(count, &map.hasher))?;
        Ok(())
    }

    pub(super) fn count_moves(&mut self) {
        self.moved = self.moved.saturating_add(self.entries.len() as u64);
    }
}
