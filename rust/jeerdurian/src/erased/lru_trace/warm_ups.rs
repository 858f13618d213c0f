// Erased from crates/lru_trace/src/warm_ups.rt: do not edit.
//! A law on the misses after a warm-up.

#[allow(unused_imports)]
use crate::rattle_std::prelude::*;

/// The misses after a warm-up are the misses of the whole trace, minus the misses of the warm-up (`minus`). An LRU
/// cache misses equally often if it begins with the keys that the warm-up leaves (`faults`).
pub fn a_warm_up_is_left_out<K: Eq>() {}
