// Erased from crates/lru_replay_tests/src/references.rt: do not edit.
//! Programs with `String` keys. Their contracts say how often they miss.

#[allow(unused_imports)]
use crate::rattle_std::prelude::*;

use crate::erased::schnellru::{ByLength, LruMap, RandomState, laws};
use crate::programs::lru_replay::references::{
    calls_make_references, maps_are_competitive, references_keep_the_newest,
};
use crate::rattle_std::alloc::{AllocError, Global};

/// Returns how many values it computed.
fn compute_at_miss<F: Fn(&String) -> u64>(
    map: &mut LruMap<String, u64>,
    text: &String,
    compute: &F,
) -> Result<u64, AllocError> {
    calls_make_references::<String, u64, RandomState>();
    if let Some(_value) = map.get(text) {
        return Ok(0);
    }
    let value = compute(text);
    map.insert(text.try_clone()?, value)?;
    Ok(1)
}

/// Returns how many values it computed: one for each miss of the trace.
pub fn read_through<F: Fn(&String) -> u64>(
    map: &mut LruMap<String, u64>,
    texts: &[String],
    compute: &F,
) -> Result<u64, AllocError> {
    references_keep_the_newest::<String, u64, RandomState>();
    let _len = map.len();
    let mut count = 0u64;
    for text in texts {
        count += compute_at_miss(map, text, compute)?;
    }
    Ok(count)
}

/// The larger map computes at most as many values as the smaller map. Suppose that the smaller map has k places and
/// computes n values. Then each policy with h ≤ k places pays at least (k + 1 - h) / k * n times. The policy begins
/// empty, stores each text, and may load texts ahead.
fn compare<F: Fn(&String) -> u64>(
    alloc: Global,
    texts: &[String],
    lengths: (u32, u32),
    compute: &F,
) -> Result<(u64, u64), AllocError> {
    laws::maps_keep_to_their_length::<String, u64, RandomState>();
    crate::erased::lru_theory::more_places_never_miss_more::<String>();
    maps_are_competitive::<String, u64, RandomState>();
    let mut small: LruMap<String, u64> = LruMap::new(alloc, ByLength::new(lengths.0), [1, 2, 3, 4], 40);
    let mut large: LruMap<String, u64> = LruMap::new(alloc, ByLength::new(lengths.1), [1, 2, 3, 4], 40);
    Ok((read_through(&mut small, texts, compute)?, read_through(&mut large, texts, compute)?))
}
