// Erased from crates/group_table/src/sizes.rt: do not edit.
//! The capacity of n buckets, and the number of buckets for n entries.

#[allow(unused_imports)]
use crate::rattle_std::prelude::*;

/// Returns how many entries a table may hold: 0 if `buckets` is 0, `buckets` - 1 if `buckets` is at most 8, else seven
/// eighths of `buckets`.
#[inline]

pub fn full_capacity(buckets: usize) -> usize {
    if buckets <= 8 { buckets.saturating_sub(1) } else { buckets / 8 * 7 }
}

/// Returns the number of buckets for `capacity` entries: 0 if `capacity` is 0, else a power of two below `max`. Returns
/// `None` if no such power is enough, or if 8 * `capacity` overflows.

pub fn buckets_for_capacity(capacity: usize, max: usize) -> Option<usize> {
    if capacity == 0 {
        return Some(0);
    }
    if capacity < 4 {
        return if 4 < max { Some(4) } else { None };
    }
    if capacity < 8 {
        return if 8 < max { Some(8) } else { None };
    }
    let buckets = (capacity.checked_mul(8)? / 7).next_power_of_two();
    if buckets < max { Some(buckets) } else { None }
}
