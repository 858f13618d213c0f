//! The names of Rattle's library that the erased programs and tests use: those of `jeerdurian`, and these. Written by
//! hand, and not proved.
#![allow(dead_code, unused_imports, unused_macros)]

pub use crate::library::{alloc, boxed, clone, cmp, fmt, hash, iter, marker, mem, simd, str, string, unwinding, vec};

pub mod collections;
pub mod fs;
pub mod io;
pub mod rc;
pub mod runtime;
mod texts;
mod vectors;

pub mod cell {
    pub use core::cell::*;
}

pub mod env {
    use super::runtime::HostRuntime;

    /// The arguments, the first of which names the program. What is not UTF-8 is replaced.
    pub fn args(_: &HostRuntime) -> std::io::Result<impl Iterator<Item = String>> {
        Ok(std::env::args_os().map(|it| it.to_string_lossy().into_owned()))
    }
}

pub mod ops {
    pub use core::ops::*;
}

pub mod process {
    pub use std::process::ExitCode;

    pub use super::runtime::Abort;
}

pub mod test {
    /// How a test ends at an error that a `?` meets: it panics there.
    pub struct Fail;

    impl<E: core::fmt::Debug> From<E> for Fail {
        #[track_caller]
        fn from(error: E) -> Fail {
            panic!("{error:?}")
        }
    }

    /// What a test returns.
    pub trait Outcome {
        fn passes(self);
    }

    impl Outcome for () {
        fn passes(self) {}
    }

    impl<E> Outcome for Result<(), E> {
        fn passes(self) {
            assert!(self.is_ok(), "the test returned an error");
        }
    }
}

/// What Rattle's prelude has and Rust's has not.
pub mod prelude {
    pub use super::runtime::HostRuntime;
    pub use super::test::Outcome;
    pub use super::texts::{ReplaceIn, Texts};
    pub(crate) use crate::library::prelude::{
        Eq, HashBy, MadeByAlloc, String, TryClone, Vec, at, at_mut, full, if_unwound, leak, never_fails, nowhere, prove,
    };
}
