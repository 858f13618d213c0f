// Erased from crates/lru_tenants_tests/src/lib.rt: do not edit.
//! Tests, through public calls, what no clause of `lru_tenants` says.

#[allow(unused_imports)]
use crate::rattle_std::prelude::*;

#[cfg(test)]
mod bytes;
#[cfg(test)]
mod callers;
#[cfg(test)]
mod examples;
#[cfg(test)]
mod memory;
#[cfg(test)]
mod numbers;
#[cfg(test)]
mod trials;
