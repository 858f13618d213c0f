// Erased from crates/lru_replay_tests/src/misses.rt: do not edit.
//! The misses that a new map counts, compared with other policies.

#[allow(unused_imports)]
use crate::rattle_std::prelude::*;

use crate::erased::schnellru::{ByLength, LruMap, RandomState, laws};
use crate::programs::lru_replay_tests::references::read_through;
use crate::rattle_std::alloc::{AllocError, Global};

pub fn misses_on_map(alloc: Global, texts: &[String], length: u32) -> Result<u64, AllocError> {
    laws::maps_keep_to_their_length::<String, u64, RandomState>();
    let mut map: LruMap<String, u64> = LruMap::new(alloc, ByLength::new(length), [1, 2, 3, 4], 40);
    read_through(&mut map, texts, &|_| 0)
}

/// Counts the misses of a new map. The contract compares them with the payments of any policy with h places. The policy
/// begins empty, stores each text, and may load texts ahead.
fn near_best(alloc: Global, texts: &[String], length: u32) -> Result<u64, AllocError> {
    crate::erased::lru_theory::lru_is_near_min::<String>();
    crate::erased::lru_theory::min_is_best::<String>();
    crate::erased::lru_theory::loading_ahead_gains_nothing::<String>();
    let count = misses_on_map(alloc, texts, length)?;
    Ok(count)
}
