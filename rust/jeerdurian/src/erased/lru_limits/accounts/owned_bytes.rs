// Erased from crates/lru_limits/src/accounts/owned_bytes.rt: do not edit.
#[allow(unused_imports)]
use crate::rattle_std::prelude::*;

use crate::erased::group_table::Table;

/// A value that reports how many bytes it owns outside of itself: the bytes of its blocks, plus the bytes that the
/// values in these blocks own.
///
/// The bytes of a block are rounded up to a multiple of 16, and 16 is added for the allocator. The GNU allocator takes
/// at most this number of bytes, except for very large blocks, which it maps page by page.
pub trait OwnedBytes {
    /// Returns the bytes that the value owns.
    fn owned_bytes(&self) -> u64;
}

#[inline]
fn block_bytes(bytes: u64) -> u64 {
    if bytes == 0 { 0 } else { bytes.saturating_add(31) / 16 * 16 }
}

/// Numbers, `bool` and `char` own nothing.
impl OwnedBytes for u8 {
    #[inline]
    fn owned_bytes(&self) -> u64 {
        0
    }
}

impl OwnedBytes for u16 {
    #[inline]
    fn owned_bytes(&self) -> u64 {
        0
    }
}

impl OwnedBytes for u32 {
    #[inline]
    fn owned_bytes(&self) -> u64 {
        0
    }
}

impl OwnedBytes for u64 {
    #[inline]
    fn owned_bytes(&self) -> u64 {
        0
    }
}

impl OwnedBytes for u128 {
    #[inline]
    fn owned_bytes(&self) -> u64 {
        0
    }
}

impl OwnedBytes for usize {
    #[inline]
    fn owned_bytes(&self) -> u64 {
        0
    }
}

impl OwnedBytes for i32 {
    #[inline]
    fn owned_bytes(&self) -> u64 {
        0
    }
}

impl OwnedBytes for i64 {
    #[inline]
    fn owned_bytes(&self) -> u64 {
        0
    }
}

impl OwnedBytes for bool {
    #[inline]
    fn owned_bytes(&self) -> u64 {
        0
    }
}

impl OwnedBytes for char {
    #[inline]
    fn owned_bytes(&self) -> u64 {
        0
    }
}

impl OwnedBytes for String {
    #[inline]
    fn owned_bytes(&self) -> u64 {
        block_bytes(self.capacity() as u64)
    }
}

impl<T: OwnedBytes> OwnedBytes for Vec<T> {
    fn owned_bytes(&self) -> u64 {
        let mut sum = block_bytes((self.capacity() as u64).saturating_mul(Table::<T>::entry_bytes() as u64));
        for item in self.as_slice() {
            sum = sum.saturating_add(item.owned_bytes());
        }
        sum
    }
}

impl<T: OwnedBytes> OwnedBytes for Box<T> {
    #[inline]
    fn owned_bytes(&self) -> u64 {
        let value: &T = &**self;
        block_bytes(Table::<T>::entry_bytes() as u64).saturating_add(value.owned_bytes())
    }
}

impl<A: OwnedBytes, B: OwnedBytes> OwnedBytes for (A, B) {
    #[inline]
    fn owned_bytes(&self) -> u64 {
        self.0.owned_bytes().saturating_add(self.1.owned_bytes())
    }
}

impl<T: OwnedBytes> OwnedBytes for Option<T> {
    #[inline]
    fn owned_bytes(&self) -> u64 {
        match self {
            Some(value) => value.owned_bytes(),
            None => 0,
        }
    }
}
