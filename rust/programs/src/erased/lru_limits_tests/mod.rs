// Erased from crates/lru_limits_tests/src/lib.rt: do not edit.
//! Tests, through public calls, what no clause of `lru_limits` says.

#[allow(unused_imports)]
use crate::rattle_std::prelude::*;

#[cfg(test)]
mod body;
#[cfg(test)]
mod by_text_length;
#[cfg(test)]
mod examples;
#[cfg(test)]
mod few;
#[cfg(test)]
mod limiters;
#[cfg(test)]
mod removed_keys;
#[cfg(test)]
mod two_fields;
