// Erased from crates/schnellru/src/map/replace.rt: do not edit.
#[allow(unused_imports)]
use crate::rattle_std::prelude::*;

use crate::erased::lru_limits::{Insertion, KeyHasher, Limiter, LookupKey};
use crate::erased::ordered_table::OrderedTable;
use crate::erased::schnellru::map::LruMap;
use crate::erased::schnellru::map::remove::take_out;
use crate::rattle_std::hash::Hash;

impl<K: Eq + Hash, V, L: Limiter<K, V>, S: KeyHasher<K>> LruMap<K, V, L, S> {
    #[inline]
    pub(super) fn offer_at<I: LookupKey<K>, F: FnMut(K, V)>(
        &mut self,
        b: usize,
        key: I,
        value: V,
        sink: &mut F,
    ) -> (bool, V)
    where
        L: Insertion<K, V, I>,
    {
        offer(&mut self.entries, &mut self.limiter, b, key, value, sink)
    }
}

#[inline]
pub(super) fn offer<K: Eq + Hash, V, I: LookupKey<K>, L: Insertion<K, V, I>, F: FnMut(K, V)>(
    entries: &mut OrderedTable<K, V, L::LinkType>,
    limiter: &mut L,
    b: usize,
    key: I,
    mut value: V,
    sink: &mut F,
) -> (bool, V) {
    let accepted = entries.offer(b, limiter, key, &mut value);
    if accepted {
        (true, value)
    } else {
        let (key, old) = take_out(entries, limiter, b);
        sink(key, old);
        (false, value)
    }
}
