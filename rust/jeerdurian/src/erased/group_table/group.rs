// Erased from crates/group_table/src/group.rt: do not edit.
//! Groups of sixteen control bytes. Each byte is a lane, and a mask has a bit for each lane.

#[allow(unused_imports)]
use crate::rattle_std::prelude::*;

use crate::erased::group_table::control::{DELETED, EMPTY};
use crate::rattle_std::simd::prelude::*;

/// Returns a mask of sixteen neighbouring control bytes: bit i is set if and only if byte i is the tag. `docs/TABLE.md`
/// shows masks.
#[inline]
pub fn match_tag(bytes: &[u8; 16], tag: u8) -> u16 {
    u8x16::from_array(*bytes).simd_eq(u8x16::splat(tag)).to_bitmask() as u16
}

/// Returns which of the bytes are 255, the byte of an empty bucket.
#[inline]
pub fn match_empty(bytes: &[u8; 16]) -> u16 {
    match_tag(bytes, EMPTY)
}

/// Returns which of the bytes have the top bit set: 255 for an empty bucket, and 128 for a deleted bucket.
#[inline]
pub fn match_free(bytes: &[u8; 16]) -> u16 {
    u8x16::from_array(*bytes).simd_ge(u8x16::splat(DELETED)).to_bitmask() as u16
}

// Sixteen neighbouring control bytes; each byte is a lane.

pub(crate) struct Group {
    lanes: [u8; 16],
}

impl Group {
    #[inline]
    pub(crate) fn load(bytes: &[u8], at: usize) -> Group {
        Group { lanes: u8x16::from_slice(&(*at!(bytes, at..))).to_array() }
    }

    #[inline]
    pub(crate) fn match_tag(&self, tag: u8) -> u16 {
        match_tag(&self.lanes, tag)
    }

    #[inline]
    pub(crate) fn match_empty(&self) -> u16 {
        match_empty(&self.lanes)
    }

    #[inline]
    pub(crate) fn match_free(&self) -> u16 {
        match_free(&self.lanes)
    }

    #[inline]
    pub(crate) fn match_full(&self) -> u16 {
        u8x16::from_array(self.lanes).simd_lt(u8x16::splat(DELETED)).to_bitmask() as u16
    }
}

#[inline]
pub(crate) fn lowest_lane(mask: u16) -> usize {
    mask.trailing_zeros() as usize
}

#[inline]
pub(crate) fn without_lowest(mask: u16) -> u16 {
    mask & (mask - 1)
}

#[inline]
pub(crate) fn lanes_below(mask: u16) -> u32 {
    let mask = mask as u32;
    mask.wrapping_sub(1) & !mask
}
