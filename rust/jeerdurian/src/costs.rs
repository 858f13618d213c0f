//! Impls of `Costed` for types that the erased crates do not cover. Signed numbers have none, because a negative cost
//! means nothing.

mod owned_bytes;

use crate::erased::lru_limits::Costed;
use alloc::boxed::Box;
use alloc::rc::Rc;
use alloc::sync::Arc;
use alloc::vec::Vec;

impl Costed for str {
    /// Returns the number of bytes.
    #[inline]
    fn cost(&self) -> u64 {
        self.len() as u64
    }
}

impl<T> Costed for [T] {
    /// Returns the number of items.
    #[inline]
    fn cost(&self) -> u64 {
        self.len() as u64
    }
}

impl<T> Costed for Vec<T> {
    /// Returns the number of items.
    #[inline]
    fn cost(&self) -> u64 {
        self.len() as u64
    }
}

impl<T, const N: usize> Costed for [T; N] {
    /// Returns the number of items.
    #[inline]
    fn cost(&self) -> u64 {
        N as u64
    }
}

impl<T: Costed> Costed for Option<T> {
    /// Returns the cost of the value, or 0 if there is none.
    #[inline]
    fn cost(&self) -> u64 {
        self.as_ref().map_or(0, T::cost)
    }
}

impl Costed for () {
    /// Returns 0.
    #[inline]
    fn cost(&self) -> u64 {
        0
    }
}

macro_rules! costs_the_sum {
    ($($part:ident $place:tt),*) => {
        impl<$($part: Costed),*> Costed for ($($part,)*) {
            /// Returns the sum of the costs of the parts, at most `u64::MAX`.
            #[inline]
            fn cost(&self) -> u64 {
                0u64$(.saturating_add(self.$place.cost()))*
            }
        }
    };
}

costs_the_sum!(A 0, B 1);
costs_the_sum!(A 0, B 1, C 2);
costs_the_sum!(A 0, B 1, C 2, D 3);

macro_rules! costs_as_its_target {
    ($($pointer:ty)*) => {$(
        impl<T: Costed + ?Sized> Costed for $pointer {
            /// Returns the cost of the value behind the pointer.
            #[inline]
            fn cost(&self) -> u64 {
                (**self).cost()
            }
        }
    )*};
}

costs_as_its_target!(&T Box<T> Rc<T> Arc<T>);
