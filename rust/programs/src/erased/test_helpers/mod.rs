// Erased from crates/test_helpers/src/lib.rt: do not edit.
//! What tests share.

#[allow(unused_imports)]
use crate::rattle_std::prelude::*;

mod hashers;
mod hog;
mod insert_key;
mod limiters;
mod random;

pub use hashers::LastByte;
pub use hog::Hog;
pub use insert_key::{Counting, InsertKey};
pub use limiters::{Alternating, Blanking, LinkedBy};
pub use random::Random;

/// Ends a test if the condition is false.
macro_rules! check {
    ($rt:expr; $holds:expr) => {
        if !$holds {
            crate::rattle_std::process::Abort::abort(&$rt);
        }
    };
}

macro_rules! all {
    ($($holds:expr),+) => {
        $(($holds))&+
    };
}
pub(crate) use all;
pub(crate) use check;
