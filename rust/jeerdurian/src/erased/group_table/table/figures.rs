// Erased from crates/group_table/src/table/figures.rt: do not edit.
//! The sizes and counts of a `Table`, and which buckets are full.

#[allow(unused_imports)]
use crate::rattle_std::prelude::*;

use super::Table;
use crate::erased::group_table::cells::bytes_of;
use crate::erased::group_table::control::DELETED;

impl<T> Table<T> {
    /// Returns the number of buckets: 0, or a power of two from 4 on.
    #[inline]
    pub fn buckets(&self) -> usize {
        self.control.buckets()
    }

    /// Returns whether the table has bucket b. The table must have buckets.
    #[inline]
    pub fn has_bucket(&self, b: usize) -> bool {
        self.control.has_bucket(b)
    }

    /// Returns the number of entries.
    #[inline]
    pub fn len(&self) -> usize {
        self.len
    }

    /// Returns the growth left: how many empty buckets may still be filled.
    #[inline]
    pub fn growth_left(&self) -> usize {
        self.growth_left
    }

    /// Returns the number of insertions into the table. A moved entry counts as one insertion. The count stops at
    /// `u64::MAX`.
    #[inline]
    pub fn insertion_count(&self) -> u64 {
        self.placed.saturating_add(self.moved)
    }

    /// Returns the number of entries that `place` and `try_place` inserted. The count stops at `u64::MAX`.
    #[inline]
    pub fn placed(&self) -> u64 {
        self.placed
    }

    /// Returns the size of an entry's type in bytes.
    pub const fn entry_bytes() -> usize {
        bytes_of::<T>()
    }

    /// Returns whether bucket `b` exists and holds an entry.
    #[inline]
    pub fn is_full(&self, b: usize) -> bool {
        b < self.buckets() && self.control.byte(b) < DELETED
    }
}
