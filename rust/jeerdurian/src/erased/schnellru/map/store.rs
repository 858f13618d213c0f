// Erased from crates/schnellru/src/map/store.rt: do not edit.
//! Stores a new entry in a free bucket. If no bucket can take the entry, first rehashes or grows the table, or evicts
//! the oldest entries.

#[allow(unused_imports)]
use crate::rattle_std::prelude::*;

use crate::erased::group_table::full_capacity;
use crate::erased::lru_limits::{KeyHasher, Limiter};
use crate::erased::schnellru::map::LruMap;
use crate::erased::schnellru::map::remove::notify;
use crate::rattle_std::alloc::AllocError;
use crate::rattle_std::hash::Hash;

impl<K: Eq + Hash, V, L: Limiter<K, V>, S: KeyHasher<K>> LruMap<K, V, L, S> {
    #[inline(always)]
    pub(super) fn store_in_room(&mut self, hash: u64, pair: (K, V)) {
        self.entries.place(hash, pair);
    }

    pub(super) fn store_in_bucket(&mut self, hash: u64, pair: (K, V)) -> Result<(), (K, V)> {
        self.entries.try_place(hash, pair)?;
        Ok(())
    }

    pub(super) fn store_without_bucket<F: FnMut(K, V)>(
        &mut self,
        hash: u64,
        pair: (K, V),
        sink: &mut F,
    ) -> Result<bool, AllocError> {
        let buckets = self.bucket_count();
        if self.len() < full_capacity(buckets) / 2 {
            self.store_after_move(buckets, hash, pair, sink)
        } else {
            self.store_after_growth(hash, pair, sink)
        }
    }

    fn store_after_growth<F: FnMut(K, V)>(
        &mut self,
        hash: u64,
        pair: (K, V),
        sink: &mut F,
    ) -> Result<bool, AllocError> {
        let mut pair = pair;
        match self.next_table(1) {
            Some((count, bytes)) => {
                if self.holding(&mut pair, |map| map.limiter.on_grow(bytes)) {
                    self.store_after_move(count, hash, pair, sink)
                } else {
                    self.store_without_growth(hash, pair, sink)
                }
            }
            None => self.store_without_growth(hash, pair, sink),
        }
    }

    fn store_without_growth<F: FnMut(K, V)>(
        &mut self,
        hash: u64,
        pair: (K, V),
        sink: &mut F,
    ) -> Result<bool, AllocError> {
        if self.is_empty() {
            self.pass_unstored(pair, sink);
            return Ok(false);
        }
        self.store_after_eviction(hash, pair, sink)
    }

    fn store_after_eviction<F: FnMut(K, V)>(
        &mut self,
        hash: u64,
        mut pair: (K, V),
        sink: &mut F,
    ) -> Result<bool, AllocError> {
        let buckets = self.bucket_count();
        let half = full_capacity(buckets) / 2;
        'evictions: loop {
            self.holding(&mut pair, |map| {
                let (key, value) = map.take_oldest();
                sink(key, value);
            });
            if self.len() < half {
                return self.store_after_move(buckets, hash, pair, sink);
            }
            match self.store_in_bucket(hash, pair) {
                Ok(()) => return Ok(true),
                Err(back) => pair = back,
            }
        }
    }

    #[cold]
    fn store_after_move<F: FnMut(K, V)>(
        &mut self,
        count: usize,
        hash: u64,
        pair: (K, V),
        sink: &mut F,
    ) -> Result<bool, AllocError> {
        match self.move_to(count) {
            Ok(()) => {
                self.count_moves();
                self.store_in_room(hash, pair);
                Ok(true)
            }
            Err(error) => {
                self.pass_unstored(pair, sink);
                Err(error)
            }
        }
    }

    fn pass_unstored<F: FnMut(K, V)>(&mut self, pair: (K, V), sink: &mut F) {
        let (key, value) = notify(&mut self.limiter, pair);
        sink(key, value);
    }
    // Calls `f`. If `f` unwinds, notifies the limiter that an accepted pair is not stored.
    #[inline(always)]
    pub(super) fn holding<R>(&mut self, pair: &mut (K, V), f: impl FnOnce(&mut Self) -> R) -> R {
        let mend = |(map, pair): &mut (&mut Self, &mut (K, V))| map.limiter.on_removed(&mut pair.0, &mut pair.1);
        if_unwound(&mut (self, pair), mend, |(map, _)| f(map))
    }
}
