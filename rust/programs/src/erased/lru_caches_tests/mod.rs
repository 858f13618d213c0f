// Erased from crates/lru_caches_tests/src/lib.rt: do not edit.
//! Tests, through public calls, what no clause of `lru_caches` says.

#[allow(unused_imports)]
use crate::rattle_std::prelude::*;

#[cfg(test)]
mod beginnings;
#[cfg(test)]
mod callers;
#[cfg(test)]
mod devices;
#[cfg(test)]
mod disk;
#[cfg(test)]
mod examples;
#[cfg(test)]
mod examples_on_values;
#[cfg(test)]
mod trials;
