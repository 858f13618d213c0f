// Erased from crates/lru_trace_tests/src/lib.rt: do not edit.
//! Tests what no clause of `lru_trace` says.

#[allow(unused_imports)]
use crate::rattle_std::prelude::*;

#[cfg(test)]
mod examples;
#[cfg(test)]
mod lines;
#[cfg(test)]
mod memory;
