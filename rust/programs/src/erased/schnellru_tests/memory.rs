// Erased from crates/schnellru_tests/src/memory.rt: do not edit.
//! Tests of the memory of a map, which no contract mentions.
#[allow(unused_imports)]
use crate::rattle_std::prelude::*;

mod clones;
mod live;
mod refused;
