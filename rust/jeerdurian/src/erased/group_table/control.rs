// Erased from crates/group_table/src/control.rt: do not edit.
//! Control bytes: one for each bucket, and 16 more, so that one read gets 16 bytes from any bucket on.

#[allow(unused_imports)]
use crate::rattle_std::prelude::*;

use crate::erased::group_table::group::Group;
use crate::rattle_std::alloc::{AllocError, Global};

pub(crate) const EMPTY: u8 = 0xff;

pub(crate) const DELETED: u8 = 0x80;

pub(crate) struct Control {
    bytes: Vec<u8>,
    last: usize,
}

impl Control {
    pub(crate) const fn new(alloc: Global) -> Control {
        Control { bytes: Vec::new(alloc), last: 0 }
    }

    pub(crate) fn with_buckets(alloc: Global, buckets: usize) -> Result<Control, AllocError> {
        let bytes = vec![in alloc; EMPTY; buckets + 16]?;
        Ok(Control { bytes, last: buckets - 1 })
    }

    pub(crate) fn copied(&self, alloc: Global) -> Result<Control, AllocError> {
        let bytes = Vec::from_slice(alloc, self.bytes.as_slice())?;
        Ok(Control { bytes, last: self.last })
    }

    #[inline]
    pub(crate) fn is_empty(&self) -> bool {
        self.last == 0
    }

    // In a table with buckets, a search seldom begins at bucket 0, so the first test usually decides. The search needs
    // `hash & last` anyway. The sum in the second test keeps the compiler from joining the tests.
    #[inline]
    pub(crate) fn is_empty_at(&self, hash: u64) -> bool {
        hash as usize & self.last == 0 && self.bytes.len() + self.last == 0
    }

    #[inline]
    pub(crate) fn buckets(&self) -> usize {
        if self.is_empty() { 0 } else { self.last + 1 }
    }

    #[inline]
    pub(crate) fn has_bucket(&self, b: usize) -> bool {
        b <= self.last
    }

    #[inline]
    pub(crate) fn wrap(&self, place: usize) -> usize {
        wrap(place, self.last)
    }

    #[inline]
    pub(crate) fn sixteen_before(&self, b: usize) -> usize {
        sixteen_before(b, self.last)
    }

    #[inline]
    pub(crate) fn byte(&self, b: usize) -> u8 {
        (*at!(self.bytes, b))
    }

    #[inline]
    pub(crate) fn group(&self, start: usize) -> Group {
        Group::load(self.bytes.as_slice(), start)
    }

    #[inline]
    pub(crate) fn set(&mut self, b: usize, byte: u8) {
        set_both(self.bytes.as_mut_slice(), self.last, b, byte);
    }

    pub(crate) fn clear(&mut self) {
        self.bytes.fill(EMPTY);
    }
}

#[inline]
pub(crate) fn tag_of(hash: u64) -> u8 {
    (hash >> 57) as u8
}

#[inline]
pub(crate) fn emptied_byte(gives_room: usize) -> u8 {
    (gives_room & 0x7f) as u8 | DELETED
}

#[inline]
pub(crate) fn room_taken(byte: u8) -> usize {
    byte as usize & 1
}

#[inline]
fn set_both(bytes: &mut [u8], last: usize, b: usize, byte: u8) {
    (*at_mut!(bytes, b)) = byte;
    // If b is one of the first 16 buckets, writes the repetition of its byte. Otherwise, this line writes the same byte
    // again, which avoids a branch.
    (*at_mut!(bytes, sixteen_before(b, last) + 16)) = byte;
}

#[inline]
fn wrap(place: usize, last: usize) -> usize {
    place & last
}

#[inline]
fn sixteen_before(b: usize, last: usize) -> usize {
    wrap(b.wrapping_sub(16), last)
}
