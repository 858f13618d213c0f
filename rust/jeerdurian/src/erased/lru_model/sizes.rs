// Erased from crates/lru_model/src/sizes.rt: do not edit.
//! The bytes of a table, and the table into which a map grows.

#[allow(unused_imports)]
use crate::rattle_std::prelude::*;

use crate::erased::group_table::{buckets_for_capacity, full_capacity};

const MOST_BYTES: usize = isize::MAX as usize - 15;

/// Returns the bytes of a table of `buckets` buckets, or `None` if the table would take more than `isize::MAX - 15`
/// bytes.

pub fn usage(entry_bytes: usize, buckets: usize) -> Option<usize> {
    if buckets == 0 {
        return Some(0);
    }
    let entries = entry_bytes.checked_mul(buckets)?.checked_add(15)? / 16 * 16;
    let bytes = entries.checked_add(buckets)?.checked_add(16)?;
    if bytes <= MOST_BYTES { Some(bytes) } else { None }
}

/// Returns the bytes of a table with one or more buckets. The result must be at most `isize::MAX - 15`.
pub fn bytes_of(entry_bytes: usize, buckets: usize) -> usize {
    (entry_bytes * buckets + 15) / 16 * 16 + buckets + 16
}

/// Returns the buckets and the bytes of the larger table, if a table of `buckets` buckets grows to hold `pairs`
/// entries. `pairs` must be more than half of the capacity of the old table. Returns `None` if the larger table would
/// have `max` or more buckets (too many for the links), or would take more than `isize::MAX - 15` bytes.

pub fn larger_table(max: usize, entry_bytes: usize, buckets: usize, pairs: usize) -> Option<(usize, usize)> {
    let need = buckets_for_capacity(pairs, max)?;
    let count = if buckets < need { need } else { buckets_for_capacity(full_capacity(2 * buckets), max)? };
    let bytes = usage(entry_bytes, count)?;
    Some((count, bytes))
}

/// Returns the bytes of the largest table that has fewer than `max` buckets and takes at most `budget` bytes. The
/// number of buckets is a power of two from 4 on. Returns 0 if no table fits.
pub fn usage_within(max: usize, entry_bytes: usize, budget: usize) -> usize {
    let mut best = 0;
    for k in 0..62u32 {
        let buckets = 4usize << k;
        if buckets < max {
            if let Some(bytes) = usage(entry_bytes, buckets) {
                if bytes <= budget {
                    best = bytes;
                }
            }
        }
    }
    best
}
