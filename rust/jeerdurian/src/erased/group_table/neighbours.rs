// Erased from crates/group_table/src/neighbours.rt: do not edit.
//! Tests whether each run of 16 neighbouring buckets that includes bucket b contains an empty bucket.

#[allow(unused_imports)]
use crate::rattle_std::prelude::*;

use crate::erased::group_table::control::Control;
use crate::erased::group_table::group::lanes_below;

#[inline]
fn empty_before(control: &Control, b: usize) -> u16 {
    control.group(control.sixteen_before(b)).match_empty()
}

#[inline]
fn empty_from(control: &Control, b: usize) -> u16 {
    control.group(b).match_empty()
}

#[inline]
fn ones_if_less(low: u32, high: u16) -> usize {
    let difference = low as i64 - high as i64;
    (difference >> 32).cast_unsigned() as usize
}

// Take the row of used (full or deleted) buckets that contains b. If the row is shorter than 16 buckets, each run
// contains an empty bucket.
#[inline]
pub(crate) fn ones_if_empty_neighbours(control: &Control, b: usize) -> usize {
    // `used` has a bit for each used bucket from b up to the next empty bucket. `used` is less than the mask of the
    // empty buckets before b if and only if the row around b is shorter than 16 buckets. Comparing the masks takes
    // fewer instructions than two counts and their sum.
    let used = lanes_below(empty_from(control, b));
    ones_if_less(used, empty_before(control, b))
}
