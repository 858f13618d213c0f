//! The names of Rattle's library that the erased crates use, defined by Rust's library. Written by hand, not proved.
//!
//! A name that means the same in both languages is Rust's own. The modules of the other names say how they differ.
#![allow(dead_code, unused_imports, unused_macros)]

pub mod alloc;
pub mod boxed;
pub mod clone;
#[cfg(feature = "std")]
pub mod collections;
#[cfg(feature = "std")]
pub mod io;
pub mod simd;
pub mod string;
pub mod unwinding;
pub mod vec;

#[macro_use]
mod macros;

/// In Rattle, each `Eq` is proved to be an equality. In Rust each type with an `==` may be a key, so memory safety does
/// not depend on this law (`SAFETY.md`).
pub mod cmp {
    pub trait Eq: PartialEq {}

    impl<T: PartialEq + ?Sized> Eq for T {}
}

pub mod hash {
    pub use core::hash::*;

    /// Hashes as Rattle's `hash_one` does. An impl of Rust's `BuildHasher` may override `hash_one`, even by type.
    pub trait HashBy: BuildHasher {
        #[allow(clippy::manual_hash_one)]
        #[inline]
        fn hash_by<T: Hash>(&self, item: T) -> u64 {
            let mut hasher = self.build_hasher();
            item.hash(&mut hasher);
            hasher.finish()
        }
    }

    impl<S: BuildHasher + ?Sized> HashBy for S {}
}

pub mod fmt {
    pub use core::fmt::*;
}

#[cfg(feature = "std")]
pub mod fs {
    pub use std::fs::*;
}

pub mod iter {
    pub use core::iter::*;
}

pub mod marker {
    pub use core::marker::*;
}

pub mod mem {
    pub use core::mem::*;
}

pub mod ops {
    pub use core::ops::*;
}

pub mod str {
    pub use core::str::*;
}

/// What Rattle's prelude contains and Rust's does not.
pub mod prelude {
    pub use super::clone::{TryClone, never_fails};
    pub use super::cmp::Eq;
    pub use super::hash::HashBy;
    pub use super::string::MadeByAlloc;
    pub use super::unwinding::{if_unwound, leak};
    pub use super::vec::Vec;
    pub use ::alloc::boxed::Box;
    pub use ::alloc::string::String;
    pub(crate) use {at, at_mut, format, full, nowhere, prove, vec};
}
