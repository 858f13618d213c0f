// Erased from crates/group_table/src/link.rt: do not edit.
//! `LinkType`: the integer types of links.

#[allow(unused_imports)]
use crate::rattle_std::prelude::*;

/// The type of a link. A link is the number of a bucket, or is `MAX`, which means no bucket.
///
/// A table with links of type `N` has fewer than `N::MAX` buckets, so the width of the links limits the size of the
/// table. The trait is implemented for `u8`, `u16`, `u32` and `usize`.
pub trait LinkType: Copy {
    /// The link that means no bucket. The number of `MAX` is greater than the number of every bucket.
    const MAX: Self;

    /// Returns the link with this number. `value` must be below the number of `MAX`.
    fn from_usize(value: usize) -> Self;

    /// Returns the number of this link.
    fn into_usize(self) -> usize;
}

impl LinkType for u8 {
    const MAX: u8 = u8::MAX;

    #[inline]
    fn from_usize(value: usize) -> u8 {
        value as u8
    }

    #[inline]
    fn into_usize(self) -> usize {
        self as usize
    }
}

impl LinkType for u16 {
    const MAX: u16 = u16::MAX;

    #[inline]
    fn from_usize(value: usize) -> u16 {
        value as u16
    }

    #[inline]
    fn into_usize(self) -> usize {
        self as usize
    }
}

impl LinkType for u32 {
    const MAX: u32 = u32::MAX;

    #[inline]
    fn from_usize(value: usize) -> u32 {
        value as u32
    }

    #[inline]
    fn into_usize(self) -> usize {
        self as usize
    }
}

impl LinkType for usize {
    const MAX: usize = usize::MAX;

    #[inline]
    fn from_usize(value: usize) -> usize {
        value
    }

    #[inline]
    fn into_usize(self) -> usize {
        self
    }
}
