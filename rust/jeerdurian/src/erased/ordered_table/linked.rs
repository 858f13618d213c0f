// Erased from crates/ordered_table/src/linked.rt: do not edit.
//! `LinkedTable`: a table whose entries have links to their newer and older neighbours, so a promotion or a removal
//! needs no walk.

#[allow(unused_imports)]
use crate::rattle_std::prelude::*;

use crate::erased::group_table::{LinkType, Table};
use crate::erased::lru_limits::LookupKey;
use crate::erased::ordered_table::linked::chain::Chain;
use crate::rattle_std::alloc::Global;
use crate::rattle_std::hash::Hash;

mod chain;
mod copy;
mod moves;
mod offer;
mod place;

// A key and its value, with links to the neighbours in the order. At an end of the order, the link is `MAX`. The links
// are in the same struct as the key and the value, to fill the padding of the struct.

pub(crate) struct Entry<K, V, N> {
    key: K,
    value: V,
    newer: N,
    older: N,
}

pub(crate) struct LinkedTable<K, V, N: LinkType> {
    chain: Chain<K, V, N>,
}

impl<K, V, N: LinkType> LinkedTable<K, V, N> {
    pub(crate) const fn new(alloc: Global) -> Self {
        LinkedTable { chain: Chain { table: Table::new(alloc), newest: N::MAX, oldest: N::MAX } }
    }

    pub(crate) const fn entry_bytes() -> usize {
        Table::<Entry<K, V, N>>::entry_bytes()
    }

    #[inline]
    pub(crate) fn len(&self) -> usize {
        self.chain.table.len()
    }

    #[inline]
    pub(crate) fn buckets(&self) -> usize {
        self.chain.table.buckets()
    }

    #[inline]
    pub(crate) fn growth_left(&self) -> usize {
        self.chain.table.growth_left()
    }

    #[inline]
    pub(crate) fn placed(&self) -> u64 {
        self.chain.table.placed()
    }

    #[inline]
    pub(crate) fn pair(&self, b: usize) -> (&K, &V) {
        let entry = self.chain.table.get(b);
        (&entry.key, &entry.value)
    }

    #[inline]
    pub(crate) fn newest(&self) -> usize {
        self.chain.newest.into_usize()
    }

    #[inline]
    pub(crate) fn oldest(&self) -> usize {
        self.chain.oldest.into_usize()
    }

    #[inline]
    pub(crate) fn older_unless_last(&self, b: usize) -> usize {
        self.chain.table.get(b).older.into_usize()
    }

    #[inline]
    pub(crate) fn newer_unless_first(&self, b: usize) -> usize {
        self.chain.table.get(b).newer.into_usize()
    }

    #[inline]
    pub(crate) fn entry_mut(&mut self, b: usize) -> (&mut K, &mut V) {
        let entry = self.chain.table.get_mut(b);
        (&mut entry.key, &mut entry.value)
    }
    #[inline]
    pub(crate) fn pair_mut(&mut self, b: usize) -> (&K, &mut V) {
        let entry = self.chain.table.get_mut(b);
        (&entry.key, &mut entry.value)
    }

    #[inline]
    pub(crate) fn find_by<F: FnMut(&K, &V) -> bool>(&self, hash: u64, mut f: F) -> Option<usize> {
        self.chain.table.find(hash, move |entry: &Entry<K, V, N>| -> bool { f(&entry.key, &entry.value) })
    }

    #[inline]
    pub(crate) fn promote(&mut self, b: usize) {
        let newer = self.chain.table.get(b).newer;
        if !self.chain.leads(newer) {
            return;
        }
        self.chain.unlink(b);
        self.chain.link_newest(b);
    }

    pub(crate) fn demote(&mut self, b: usize) {
        let older = self.chain.table.get(b).older;
        if !self.chain.leads(older) {
            return;
        }
        self.chain.unlink(b);
        self.chain.link_oldest(b);
    }

    #[inline(always)]
    pub(crate) fn take(&mut self, b: usize, last: bool) -> (K, V) {
        let Entry { key, value, newer, older } = self.chain.table.take(b);
        self.chain.close_gap(newer, older, last);
        (key, value)
    }
}

impl<K, V, N: LinkType> LinkedTable<K, V, N> {
    pub(crate) fn clear(&mut self) {
        self.chain.table.clear();
        self.chain.newest = N::MAX;
        self.chain.oldest = N::MAX;
    }
}

impl<K: Eq + Hash, V, N: LinkType> LinkedTable<K, V, N> {
    #[inline]
    pub(crate) fn find<Q: LookupKey<K>>(&self, hash: u64, key: &Q) -> Option<usize> {
        self.chain.table.find(hash, |entry| key.is_key(&entry.key))
    }
}
