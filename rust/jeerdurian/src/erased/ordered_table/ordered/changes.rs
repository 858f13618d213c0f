// Erased from crates/ordered_table/src/ordered/changes.rt: do not edit.
//! The calls that change the order of an `OrderedTable`, or its buckets. Most of these calls first write the pending
//! promotion, if any, into the links.

#[allow(unused_imports)]
use crate::rattle_std::prelude::*;

use crate::erased::group_table::LinkType;
use crate::erased::lru_limits::{Insertion, KeyHasher, LookupKey};
use crate::erased::ordered_table::ordered::OrderedTable;
use crate::erased::ordered_table::ordered::promoted::settle;
use crate::rattle_std::alloc::AllocError;
use crate::rattle_std::hash::Hash;

impl<K, V, N: LinkType> OrderedTable<K, V, N> {
    /// Writes the pending promotion into the links, so that the compiler can omit this step in the next calls.
    #[inline(always)]
    pub fn settle(&mut self) {
        settle(&mut self.linked, &mut self.promoted);
    }

    /// Puts an entry whose key has this hash into the first free bucket, as the newest. There must be growth left.
    ///
    /// Cost: `O(1)` expected.
    #[inline(always)]
    pub fn place(&mut self, hash: u64, pair: (K, V)) {
        settle(&mut self.linked, &mut self.promoted);
        self.linked.place(hash, pair);
    }

    /// Does what `place` does. If no growth is left, only a deleted bucket may take the entry.
    ///
    /// # Errors
    ///
    /// Returns the entry if no bucket may take it. Then nothing has changed.
    pub fn try_place(&mut self, hash: u64, pair: (K, V)) -> Result<(), (K, V)> {
        settle(&mut self.linked, &mut self.promoted);
        self.linked.try_place(hash, pair)
    }

    /// Makes the entry in a full bucket the newest.
    ///
    /// Cost: `O(1)`.
    #[inline]
    pub fn promote(&mut self, b: usize) {
        match &mut self.promoted {
            Some(last) => {
                self.linked.promote(*last);
                *last = b;
            }
            // Writes this promotion into the links at once. This write touches the second-oldest entry. If calls keep
            // promoting the oldest entry, the next call reads the entry touched here.
            None if self.linked.oldest() == b => self.linked.promote(b),
            None => self.promoted = Some(b),
        }
    }

    /// Makes the entry in a full bucket the oldest.
    ///
    /// Cost: `O(1)`.
    pub fn demote(&mut self, b: usize) {
        settle(&mut self.linked, &mut self.promoted);
        self.linked.demote(b);
    }

    /// Takes the entry out of a full bucket.
    ///
    /// Cost: `O(1)`.
    #[inline(always)]
    pub fn take(&mut self, b: usize) -> (K, V) {
        settle(&mut self.linked, &mut self.promoted);
        self.linked.take(b, false)
    }

    /// Takes out the oldest entry, without reading its `older` link. The table must not be empty.
    ///
    /// Cost: `O(1)`.
    #[inline(always)]
    pub fn take_oldest(&mut self) -> (K, V) {
        settle(&mut self.linked, &mut self.promoted);
        let b = self.linked.oldest();
        self.linked.take(b, true)
    }
}

impl<K, V, N: LinkType> OrderedTable<K, V, N> {
    /// Drops all entries. The buckets stay, and are empty.
    ///
    /// Cost: `O(buckets)`.
    pub fn clear(&mut self) {
        self.promoted = None;
        self.linked.clear();
    }
}

impl<K: Eq + Hash, V, N: LinkType> OrderedTable<K, V, N> {
    /// Offers a limiter a new value for the entry in a full bucket. Returns whether the limiter accepted the value. If
    /// it did, the entry has the new value, and `value` is the old value. The order stays.
    #[inline]
    pub fn offer<I: LookupKey<K>, L: Insertion<K, V, I>>(
        &mut self,
        b: usize,
        limiter: &mut L,
        key: I,
        value: &mut V,
    ) -> bool {
        let length = self.len();
        self.linked.offer(b, length, limiter, key, value)
    }

    /// Moves all entries into a table of `buckets` buckets, in the same order. If the table already has `buckets`
    /// buckets, rehashes the entries in place.
    ///
    /// Cost: `O(old buckets + new buckets)`, and a hash for each entry.
    ///
    /// # Errors
    ///
    /// Out of memory. Nothing has changed. The call never fails if `buckets` is 0, or if a table without entries keeps
    /// its number of buckets.
    pub fn move_to<S: KeyHasher<K>>(&mut self, buckets: usize, hasher: &S) -> Result<(), AllocError> {
        settle(&mut self.linked, &mut self.promoted);
        self.linked.move_to(buckets, hasher)
    }
}

impl<K, V, N: LinkType> OrderedTable<K, V, N> {
    /// Clones each entry into the bucket with the same number, in the same order.
    ///
    /// Cost: `O(buckets)`, and a clone of each key and value.
    ///
    /// # Errors
    ///
    /// Out of memory, or a clone failed. Without buckets the call never fails.
    pub fn copy(&self) -> Result<Self, AllocError>
    where
        K: TryClone,
        V: TryClone,
    {
        Ok(OrderedTable { linked: self.linked.copy()?, promoted: self.promoted })
    }
}
