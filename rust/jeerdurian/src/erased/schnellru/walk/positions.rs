// Erased from crates/schnellru/src/walk/positions.rt: do not edit.
#[allow(unused_imports)]
use crate::rattle_std::prelude::*;

use crate::erased::lru_limits::{KeyHasher, Limiter};
use crate::erased::schnellru::map::LruMap;
use crate::rattle_std::hash::Hash;

impl<K: Eq + Hash, V, L: Limiter<K, V>, S: KeyHasher<K>> LruMap<K, V, L, S> {
    #[inline]
    pub(crate) fn ends(&self) -> (Option<usize>, Option<usize>) {
        if self.entries.len() == 0 {
            return (None, None);
        }
        (Some(self.entries.newest()), Some(self.entries.oldest()))
    }

    #[inline]
    pub(crate) fn older(&self, at: usize, b: usize) -> Option<usize> {
        if self.entries.len() - at > 1 { Some(self.entries.older_unless_last(b)) } else { None }
    }

    #[inline]
    pub(crate) fn newer(&self, at: usize, b: usize) -> Option<usize> {
        if at > 0 { Some(self.entries.newer_unless_first(b)) } else { None }
    }

    #[inline]
    pub(crate) fn pair_at_mut(&mut self, at: usize, b: usize) -> (&K, &mut V) {
        self.entries.pair_mut(b)
    }
}
