// Erased from crates/test_maps/src/lib.rt: do not edit.
//! Maps that tests share, and functions that look at them.

#[allow(unused_imports)]
use crate::rattle_std::prelude::*;

mod maps;

pub use maps::{fill, insert_all, is_pair, is_value, map_of};
