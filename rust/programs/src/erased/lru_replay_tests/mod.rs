// Erased from crates/lru_replay_tests/src/lib.rt: do not edit.
//! Callers of the laws of `lru_replay`, and tests of what no contract says.

#[allow(unused_imports)]
use crate::rattle_std::prelude::*;

#[cfg(test)]
mod caches;
#[cfg(test)]
mod callers;
#[cfg(test)]
mod costs;
#[cfg(test)]
mod curves;
#[cfg(test)]
mod examples;
#[cfg(test)]
mod misses;
#[cfg(test)]
mod programs;
#[cfg(test)]
mod references;
#[cfg(test)]
mod refused;
