// Erased from crates/schnellru/src/map/find.rt: do not edit.
//! The search for a key, and what follows it: a promotion, a demotion or a removal.

#[allow(unused_imports)]
use crate::rattle_std::prelude::*;

use crate::erased::lru_limits::{KeyHasher, Limiter, LookupKey};
use crate::erased::schnellru::map::LruMap;
use crate::erased::schnellru::map::remove::take_out;
use crate::rattle_std::hash::Hash;

impl<K: Eq + Hash, V, L: Limiter<K, V>, S: KeyHasher<K>> LruMap<K, V, L, S> {
    #[inline(always)]
    pub(crate) fn find<Q: LookupKey<K>>(&self, key: &Q) -> Option<usize> {
        self.find_hashed(self.hasher.hash_named(key), key)
    }

    #[inline]
    pub(super) fn find_hashed<Q: LookupKey<K>>(&self, hash: u64, key: &Q) -> Option<usize> {
        self.entries.find(hash, key)
    }

    #[inline]
    pub(super) fn pair_in(&self, b: usize) -> (&K, &V) {
        self.entries.pair(b)
    }

    #[inline]
    pub(super) fn value_in_mut(&mut self, b: usize) -> &mut V {
        self.entries.pair_mut(b).1
    }

    #[inline]
    pub(super) fn promote_at(&mut self, b: usize) {
        self.entries.promote(b);
    }

    #[inline(always)]
    pub(crate) fn settle(&mut self) {
        self.entries.settle();
    }

    #[inline]
    pub(super) fn demote_at(&mut self, b: usize) {
        self.entries.demote(b);
    }

    #[inline]
    pub(super) fn take_at(&mut self, b: usize) -> (K, V) {
        take_out(&mut self.entries, &mut self.limiter, b)
    }
}
