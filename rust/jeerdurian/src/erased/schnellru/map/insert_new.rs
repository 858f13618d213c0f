// Erased from crates/schnellru/src/map/insert_new.rt: do not edit.
#[allow(unused_imports)]
use crate::rattle_std::prelude::*;

use crate::erased::lru_limits::{Insertion, KeyHasher, Limiter, LookupKey};
use crate::erased::ordered_table::OrderedTable;
use crate::erased::schnellru::map::LruMap;
use crate::rattle_std::alloc::AllocError;
use crate::rattle_std::hash::Hash;

// The maximum size of a small entry in bytes, including its links. A larger entry is inserted inline, because a call
// would copy its key and its value once more. A small entry is inserted by a call, because inline code would take
// registers from the caller's loop.
const SMALL: usize = 32;

impl<K: Eq + Hash, V, L: Limiter<K, V>, S: KeyHasher<K>> LruMap<K, V, L, S> {
    #[inline(always)]
    pub(crate) fn insert_new<I: LookupKey<K>, F: FnMut(K, V)>(
        &mut self,
        hash: u64,
        key: I,
        value: V,
        sink: &mut F,
    ) -> Result<bool, AllocError>
    where
        L: Insertion<K, V, I>,
    {
        if OrderedTable::<K, V, L::LinkType>::entry_bytes() > SMALL {
            self.insert_in_line(hash, key, value, sink)
        } else {
            self.insert_by_call(key, hash, value, sink)
        }
    }

    // The hash is the third argument, because the last multiplication of the hasher leaves the hash in the register for
    // the third argument.
    #[inline(never)]
    fn insert_by_call<I: LookupKey<K>, F: FnMut(K, V)>(
        &mut self,
        key: I,
        hash: u64,
        value: V,
        sink: &mut F,
    ) -> Result<bool, AllocError>
    where
        L: Insertion<K, V, I>,
    {
        self.insert_in_line(hash, key, value, sink)
    }

    #[inline(always)]
    fn insert_in_line<I: LookupKey<K>, F: FnMut(K, V)>(
        &mut self,
        hash: u64,
        key: I,
        value: V,
        sink: &mut F,
    ) -> Result<bool, AllocError>
    where
        L: Insertion<K, V, I>,
    {
        // This is one match, because a `?` would copy the pair once more.
        match self.limiter.on_insert(self.alloc, self.entries.len(), key, value) {
            Ok(Some(pair)) => self.insert_pair(hash, pair, sink),
            Ok(None) => Ok(false),
            Err(error) => Err(error),
        }
    }

    fn insert_pair<F: FnMut(K, V)>(&mut self, hash: u64, pair: (K, V), sink: &mut F) -> Result<bool, AllocError> {
        self.settle();
        let mut pair = pair;
        self.holding(&mut pair, |map| map.make_room(sink));
        // `insert_without_growth` takes a key and a value. If it took a pair, each insert would first clear memory for
        // a pair.
        let (key, value) = pair;
        if self.growth_left() == 0 {
            return self.insert_without_growth(hash, key, value, sink);
        }
        self.store_in_room(hash, (key, value));
        Ok(self.evict_over_limit(sink))
    }

    // Out of line, because inserts call this function only if no growth is left.
    #[cold]
    #[inline(never)]
    fn insert_without_growth<F: FnMut(K, V)>(
        &mut self,
        hash: u64,
        key: K,
        value: V,
        sink: &mut F,
    ) -> Result<bool, AllocError> {
        if self.is_empty() {
            return self.insert_without_bucket(hash, (key, value), sink);
        }
        match self.store_in_bucket(hash, (key, value)) {
            Ok(()) => Ok(self.evict_over_limit(sink)),
            Err(pair) => self.insert_without_bucket(hash, pair, sink),
        }
    }

    // Under `ByMemoryUsage`, each insert of a new entry may call this function. Out of line, so that the code of other
    // inserts stays short.
    #[inline(never)]
    fn insert_without_bucket<F: FnMut(K, V)>(
        &mut self,
        hash: u64,
        pair: (K, V),
        sink: &mut F,
    ) -> Result<bool, AllocError> {
        if !self.store_without_bucket(hash, pair, sink)? {
            return Ok(false);
        }
        Ok(self.evict_over_limit(sink))
    }
}
