// Erased from crates/group_table/src/fields.rt: do not edit.
//! Writes the control bytes and the entries of a table together.

#[allow(unused_imports)]
use crate::rattle_std::prelude::*;

use crate::erased::group_table::control::{Control, DELETED};
use crate::erased::group_table::entries::Entries;
use crate::erased::group_table::link::LinkType;
use crate::rattle_std::alloc::{AllocError, Global};

pub(crate) fn no_links<N: LinkType>(alloc: Global, count: usize) -> Result<Vec<N>, AllocError> {
    let mut links = Vec::with_capacity(alloc, count)?;
    for _ in 0..count {
        links.push_reserved(N::MAX);
    }
    Ok(links)
}

// Drops the entries in the first `count` places. The other places hold no entry.
pub(crate) fn drop_first<T>(control: &Control, entries: &mut Entries<T>, count: usize) {
    for b in 0..count {
        if control.byte(b) < DELETED {
            drop(entries.read(b));
        }
    }
}

pub(crate) fn drop_entries<T>(control: &Control, entries: &mut Entries<T>, len: usize) {
    if len > 0 {
        drop_first(control, entries, control.buckets());
    }
}

#[inline]
pub(crate) fn fill_bucket<T>(control: &mut Control, entries: &mut Entries<T>, b: usize, tag: u8, entry: T) {
    control.set(b, tag);
    entries.write(b, entry);
}

// Writes the tag and the entry of a bucket. `byte` is the old control byte. If it is a tag, returns the old entry.
#[inline]
pub(crate) fn put<T>(
    control: &mut Control,
    entries: &mut Entries<T>,
    b: usize,
    byte: u8,
    tag: u8,
    entry: T,
) -> Option<T> {
    control.set(b, tag);
    if byte < DELETED {
        let stood = entries.read(b);
        entries.write(b, entry);
        Some(stood)
    } else {
        entries.write(b, entry);
        None
    }
}

#[inline]
pub(crate) fn empty_bucket<T>(control: &mut Control, entries: &mut Entries<T>, b: usize, byte: u8) -> T {
    control.set(b, byte);
    entries.read(b)
}
