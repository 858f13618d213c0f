// Erased from crates/lru_replay_tests/src/programs.rt: do not edit.
//! More programs with `String` keys, and two maps that get the same calls.

#[allow(unused_imports)]
use crate::rattle_std::prelude::*;

use crate::erased::schnellru::{ByLength, GetOrInsertError, LruMap, RandomState};
use crate::programs::lru_replay::references::{
    a_smaller_map_is_included, calls_change_the_keys, calls_make_references, gets_that_insert_if_made_make_references,
    gets_that_insert_make_references, more_capacity_never_misses_more, programs_make_references,
};
use crate::programs::lru_replay_tests::references::read_through;
use crate::rattle_std::alloc::AllocError;

/// A successful call is a reference.
fn remember<F: FnOnce() -> u64>(map: &mut LruMap<String, u64>, text: String, make: F) -> Result<bool, AllocError> {
    gets_that_insert_make_references::<String, u64, F, RandomState>();
    let kept = map.ensure_newest(text, make)?;
    Ok(kept)
}

fn try_to_remember<F: FnOnce() -> Result<u64, u64>>(
    map: &mut LruMap<String, u64>,
    text: String,
    make: F,
) -> Result<bool, GetOrInsertError<u64>> {
    gets_that_insert_if_made_make_references::<String, u64, u64, F, RandomState>();
    let kept = map.ensure_newest_fallible(text, make)?;
    Ok(kept)
}

/// A successful call is a reference that misses.
fn insert_new(map: &mut LruMap<String, u64>, text: String, value: u64) -> Result<bool, AllocError> {
    calls_make_references::<String, u64, RandomState>();
    programs_make_references::<String, u64, RandomState>();
    let kept = map.insert(text, value)?;
    Ok(kept)
}

fn read_both<F: Fn(&String) -> u64>(
    small: &mut LruMap<String, u64>,
    large: &mut LruMap<String, u64>,
    texts: &[String],
    compute: &F,
) -> Result<(u64, u64), AllocError> {
    more_capacity_never_misses_more::<String, u64, RandomState>();
    Ok((read_through(small, texts, compute)?, read_through(large, texts, compute)?))
}

fn keep_and_forget(small: &mut LruMap<String, u64>, large: &mut LruMap<String, u64>, kept: &String, gone: &String) {
    calls_change_the_keys::<String, u64, RandomState>();
    a_smaller_map_is_included::<String, u64, RandomState>();
    small.promote(kept);
    small.remove(gone);
    large.promote(kept);
    large.remove(gone);
}
