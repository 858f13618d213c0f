// Erased from crates/ordered_table/src/linked/offer.rt: do not edit.
#[allow(unused_imports)]
use crate::rattle_std::prelude::*;

use crate::erased::group_table::LinkType;
use crate::erased::lru_limits::{Insertion, LookupKey};
use crate::erased::ordered_table::linked::{Entry, LinkedTable};
use crate::rattle_std::hash::Hash;
use crate::rattle_std::mem;

impl<K: Eq + Hash, V, N: LinkType> LinkedTable<K, V, N> {
    #[inline]
    pub(crate) fn offer<I: LookupKey<K>, L: Insertion<K, V, I>>(
        &mut self,
        b: usize,
        length: usize,
        limiter: &mut L,
        key: I,
        value: &mut V,
    ) -> bool {
        offer_entry(self.chain.table.get_mut(b), length, limiter, key, value)
    }
}

#[inline]
fn offer_entry<K: Eq + Hash, V, N, I: LookupKey<K>, L: Insertion<K, V, I>>(
    entry: &mut Entry<K, V, N>,
    length: usize,
    limiter: &mut L,
    key: I,
    value: &mut V,
) -> bool {
    let accepted = limiter.on_replace(length, &mut entry.key, key, &mut entry.value, &mut *value);
    if accepted {
        mem::swap(&mut entry.value, value);
    }
    accepted
}
