// Erased from crates/group_table/src/probe.rt: do not edit.
//! Searches for a hash, group by group, over the control bytes and the entries.

#[allow(unused_imports)]
use crate::rattle_std::prelude::*;

use crate::erased::group_table::control::{Control, DELETED, tag_of};
use crate::erased::group_table::entries::Entries;
use crate::erased::group_table::group::{lowest_lane, without_lowest};

// `start` is the first bucket of the current group. The next group begins `stride` buckets later.

pub(crate) struct Probe {
    start: usize,
    stride: usize,
}

impl Probe {
    #[inline]
    fn of(control: &Control, hash: u64) -> Probe {
        Probe { start: control.wrap(hash as usize), stride: 16 }
    }

    #[inline]
    fn go_on(&mut self, control: &Control) {
        self.start = control.wrap(self.start + self.stride);
        self.stride += 16;
    }
}

// How the search of one group ends: `f` accepted the entry in a bucket, an empty bucket ended the search, or neither.
enum Searched {
    Accepted(usize),
    Ended,
    GoesOn,
}

#[inline(always)]
fn search_group<T, F: FnMut(&T) -> bool>(
    control: &Control,
    entries: &Entries<T>,
    start: usize,
    tag: u8,
    f: &mut F,
) -> Searched {
    let group = control.group(start);
    let mut mask = group.match_tag(tag);
    'lanes: while mask != 0 {
        let b = control.wrap(start + lowest_lane(mask));
        if f(entries.get(b)) {
            return Searched::Accepted(b);
        }
        mask = without_lowest(mask);
    }
    if group.match_empty() != 0 { Searched::Ended } else { Searched::GoesOn }
}

// Calls `f` with the entries that have the tag of the hash, group by group. Ends when `f` accepts an entry, or when a
// group has an empty bucket. Inlined, because a call would load all arguments, even if the search compares no entry.
#[inline(always)]
pub(crate) fn find_bucket<T, F: FnMut(&T) -> bool>(
    control: &Control,
    entries: &Entries<T>,
    hash: u64,
    mut f: F,
) -> Option<usize> {
    // The first group is not part of the loop, because most searches end in the first group and need no stride.
    let tag = tag_of(hash);
    let mut probe = Probe::of(control, hash);
    match search_group(control, entries, probe.start, tag, &mut f) {
        Searched::Accepted(b) => return Some(b),
        Searched::Ended => return None,
        Searched::GoesOn => {}
    }
    'groups: loop {
        probe.go_on(control);
        match search_group(control, entries, probe.start, tag, &mut f) {
            Searched::Accepted(b) => return Some(b),
            Searched::Ended => return None,
            Searched::GoesOn => {}
        }
    }
}

#[inline]
fn free_in_group(control: &Control, start: usize) -> Option<usize> {
    let mask = control.group(start).match_free();
    if mask == 0 {
        return None;
    }
    let b = control.wrap(start + lowest_lane(mask));
    if control.byte(b) >= DELETED {
        return Some(b);
    }
    // In a table of 4 or 8 buckets, empty bytes follow the bytes of the buckets. The lowest free lane is one of these
    // empty bytes, so all buckets from `start` to the last bucket are full. The group goes on at bucket 0.
    Some(lowest_lane(control.group(0).match_free()))
}

#[inline(always)]
pub(crate) fn first_free(control: &Control, hash: u64) -> usize {
    // The first group is not part of the loop, because it nearly always has a free bucket. Then no stride is needed.
    let mut probe = Probe::of(control, hash);
    if let Some(b) = free_in_group(control, probe.start) {
        return b;
    }
    'groups: loop {
        probe.go_on(control);
        if let Some(b) = free_in_group(control, probe.start) {
            return b;
        }
    }
}

// Returns whether bucket b is in the first group of a search for the hash.
#[inline]
pub(crate) fn is_read_first(control: &Control, hash: u64, b: usize) -> bool {
    let back = control.buckets() - control.wrap(hash as usize);
    control.wrap(b + back) < 16
}
