// Erased from crates/group_table_tests/src/lib.rt: do not edit.
//! Tests, through public calls, what no clause of `group_table` says.

#[allow(unused_imports)]
use crate::rattle_std::prelude::*;

#[cfg(test)]
mod examples;
#[cfg(test)]
mod relocations;
#[cfg(test)]
mod tables;
