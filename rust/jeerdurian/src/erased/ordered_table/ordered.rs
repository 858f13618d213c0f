// Erased from crates/ordered_table/src/ordered.rt: do not edit.
//! `OrderedTable`.

#[allow(unused_imports)]
use crate::rattle_std::prelude::*;

use crate::erased::group_table::LinkType;
use crate::erased::lru_limits::LookupKey;
use crate::erased::ordered_table::linked::LinkedTable;
use crate::rattle_std::alloc::Global;
use crate::rattle_std::hash::Hash;

mod changes;
mod equal;
mod index;
mod promoted;

/// A table whose full buckets are in an order, newest first. `N` is the type of its links.
pub struct OrderedTable<K, V, N: LinkType> {
    linked: LinkedTable<K, V, N>,
    // The bucket of the pending promotion, which is not yet written into the links. The next call that changes the
    // order writes it.
    promoted: Option<usize>,
}

impl<K, V, N: LinkType> OrderedTable<K, V, N> {
    /// Makes a table without buckets, and allocates nothing.
    pub const fn new(alloc: Global) -> Self {
        OrderedTable { linked: LinkedTable::new(alloc), promoted: None }
    }

    /// Returns the size of an entry: a key, a value and two links.
    pub const fn entry_bytes() -> usize {
        LinkedTable::<K, V, N>::entry_bytes()
    }

    /// Returns the number of entries.
    #[inline]
    pub fn len(&self) -> usize {
        self.linked.len()
    }

    /// Returns the number of buckets.
    #[inline]
    pub fn buckets(&self) -> usize {
        self.linked.buckets()
    }

    /// Returns how many empty buckets may still be filled.
    #[inline]
    pub fn growth_left(&self) -> usize {
        self.linked.growth_left()
    }

    /// Returns the number of entries that were put into the table. A moved entry is not counted again.
    #[inline]
    pub fn placed(&self) -> u64 {
        self.linked.placed()
    }

    /// Returns the entry in a full bucket.
    #[inline]
    pub fn pair(&self, b: usize) -> (&K, &V) {
        self.linked.pair(b)
    }

    /// Returns the bucket of the newest entry. The table must not be empty.
    #[inline]
    pub fn newest(&self) -> usize {
        promoted::newest(&self.linked, self.promoted)
    }

    /// Returns the bucket of the oldest entry. The table must not be empty.
    #[inline]
    pub fn oldest(&self) -> usize {
        promoted::oldest(&self.linked, self.promoted)
    }

    /// Returns the bucket just older than the full bucket `b`. For the oldest bucket, the result is any number.
    #[inline]
    pub fn older_unless_last(&self, b: usize) -> usize {
        promoted::older_unless_last(&self.linked, self.promoted, b)
    }

    /// Returns the bucket just newer than the full bucket `b`. For the newest bucket, the result is any number.
    #[inline]
    pub fn newer_unless_first(&self, b: usize) -> usize {
        promoted::newer_unless_first(&self.linked, self.promoted, b)
    }

    /// Lends the value of the entry in a full bucket for writing.
    #[inline]
    pub(crate) fn entry_mut(&mut self, b: usize) -> (&mut K, &mut V) {
        self.linked.entry_mut(b)
    }
    #[inline]
    pub fn pair_mut(&mut self, b: usize) -> (&K, &mut V) {
        self.linked.pair_mut(b)
    }

    /// Returns the bucket of the first entry that `f` accepts.
    ///
    /// `f` is called as `LruMap::get_by_hash` of `schnellru` calls its closure.
    ///
    /// Cost: `O(1)` expected.
    #[inline]
    pub fn find_by<F: FnMut(&K, &V) -> bool>(&self, hash: u64, f: F) -> Option<usize> {
        self.linked.find_by(hash, f)
    }
}

impl<K: Eq + Hash, V, N: LinkType> OrderedTable<K, V, N> {
    /// Returns the bucket of the key that `key` names. `hash` must be the hash of this key.
    ///
    /// Cost: `O(1)` expected.
    #[inline]
    pub fn find<Q: LookupKey<K>>(&self, hash: u64, key: &Q) -> Option<usize> {
        self.linked.find(hash, key)
    }
}
