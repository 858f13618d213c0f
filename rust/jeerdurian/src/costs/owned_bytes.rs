//! Impls of `OwnedBytes` for types that the erased crates do not cover.

use crate::erased::lru_limits::OwnedBytes;
use alloc::borrow::{Cow, ToOwned};
use alloc::boxed::Box;
use alloc::rc::Rc;
use alloc::sync::Arc;
use alloc::vec::Vec;
use core::num::*;

macro_rules! owns_nothing {
    ($($type:ty)*) => {$(
        impl OwnedBytes for $type {
            /// Returns 0.
            #[inline]
            fn owned_bytes(&self) -> u64 {
                0
            }
        }
    )*};
}

owns_nothing!(() i8 i16 i128 isize f32 f64 str core::time::Duration);
owns_nothing!(NonZeroU8 NonZeroU16 NonZeroU32 NonZeroU64 NonZeroU128 NonZeroUsize);
owns_nothing!(NonZeroI8 NonZeroI16 NonZeroI32 NonZeroI64 NonZeroI128 NonZeroIsize);
#[cfg(feature = "std")]
owns_nothing!(std::time::Instant std::time::SystemTime);

impl<T: ?Sized> OwnedBytes for &T {
    /// Returns 0: what is borrowed is not counted.
    #[inline]
    fn owned_bytes(&self) -> u64 {
        0
    }
}

impl<T: OwnedBytes> OwnedBytes for [T] {
    /// Returns the bytes that the items own.
    #[inline]
    fn owned_bytes(&self) -> u64 {
        items_own(self)
    }
}

/// Returns the bytes of a block, rounded as the docs of `OwnedBytes` say.
#[inline]
fn block_bytes(bytes: usize) -> u64 {
    if bytes == 0 { 0 } else { (bytes as u64).saturating_add(31) / 16 * 16 }
}

/// Returns the bytes of the block of an array.
#[inline]
fn array_bytes<T>(items: usize) -> u64 {
    block_bytes(items.saturating_mul(size_of::<T>()))
}

/// Returns the bytes of the block of an `Rc` or `Arc` of this value: two counts of 8 bytes, and the value.
fn shared_bytes<T: ?Sized>(value: &T) -> u64 {
    let align = align_of_val(value).max(8);
    block_bytes(16usize.next_multiple_of(align) + size_of_val(value).next_multiple_of(align))
}

fn items_own<T: OwnedBytes>(items: &[T]) -> u64 {
    items.iter().fold(0, |sum, item| sum.saturating_add(item.owned_bytes()))
}

impl<T: OwnedBytes> OwnedBytes for Vec<T> {
    /// Returns the bytes of the vector's block (its whole capacity), plus the bytes that its items own.
    fn owned_bytes(&self) -> u64 {
        array_bytes::<T>(self.capacity()).saturating_add(items_own(self))
    }
}

impl<T: OwnedBytes, const N: usize> OwnedBytes for [T; N] {
    /// Returns the bytes that the items own.
    #[inline]
    fn owned_bytes(&self) -> u64 {
        items_own(self)
    }
}

impl<T: OwnedBytes> OwnedBytes for Box<[T]> {
    /// Returns the bytes of the block, plus the bytes that the items own.
    fn owned_bytes(&self) -> u64 {
        array_bytes::<T>(self.len()).saturating_add(items_own(self))
    }
}

impl OwnedBytes for Box<str> {
    /// Returns the bytes of the block.
    #[inline]
    fn owned_bytes(&self) -> u64 {
        block_bytes(self.len())
    }
}

macro_rules! shares {
    ($($pointer:ident)*) => {$(
        impl<T: OwnedBytes + ?Sized> OwnedBytes for $pointer<T> {
            /// Returns the bytes of the shared block, plus the bytes that the value in it owns. If several entries
            /// share the block, each of them counts it.
            fn owned_bytes(&self) -> u64 {
                shared_bytes(&**self).saturating_add((**self).owned_bytes())
            }
        }
    )*};
}

shares!(Rc Arc);

impl<B: ToOwned<Owned: OwnedBytes> + ?Sized> OwnedBytes for Cow<'_, B> {
    /// Returns what the owned value owns, or 0 if the value is borrowed.
    fn owned_bytes(&self) -> u64 {
        match self {
            Cow::Borrowed(_) => 0,
            Cow::Owned(value) => value.owned_bytes(),
        }
    }
}

macro_rules! owns_the_sum {
    ($($part:ident $place:tt),*) => {
        impl<$($part: OwnedBytes),*> OwnedBytes for ($($part,)*) {
            /// Returns the bytes that the parts own.
            #[inline]
            fn owned_bytes(&self) -> u64 {
                0u64$(.saturating_add(self.$place.owned_bytes()))*
            }
        }
    };
}

owns_the_sum!(A 0, B 1, C 2);
owns_the_sum!(A 0, B 1, C 2, D 3);

#[cfg(feature = "std")]
macro_rules! owns_its_capacity {
    ($($type:ty)*) => {$(
        impl OwnedBytes for $type {
            /// Returns the bytes of the block (its whole capacity).
            #[inline]
            fn owned_bytes(&self) -> u64 {
                block_bytes(self.capacity())
            }
        }
    )*};
}

#[cfg(feature = "std")]
owns_its_capacity!(std::path::PathBuf std::ffi::OsString);
