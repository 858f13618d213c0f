// Erased from crates/lru_replay_tests/src/costs.rt: do not edit.
//! Programs with `String` keys under a limit of cost. Their contracts say how often they load a value.

#[allow(unused_imports)]
use crate::rattle_std::prelude::*;

use crate::erased::schnellru::{ByCost, ByWeight, GetOrInsertError, LruMap, RandomState};
use crate::programs::lru_replay::costs::{
    calls_make_references, gets_that_insert_if_made_make_references, gets_that_insert_make_references,
    maps_keep_to_their_cost, more_capacity_never_misses_more, references_keep_the_newest,
};
use crate::programs::test_helpers::check;
use crate::rattle_std::alloc::{AllocError, Global};
use crate::rattle_std::test::Fail;

/// Where values come from. The text determines how many bytes its value has.
trait Source {
    fn load(&self, text: &String) -> Result<Vec<u8>, AllocError>;
}

/// Returns how many values it loaded.
fn load_at_miss<L: Source>(
    map: &mut LruMap<String, Vec<u8>, ByCost>,
    text: &String,
    source: &L,
) -> Result<u64, AllocError> {
    calls_make_references::<String, Vec<u8>, RandomState>();
    if let Some(_bytes) = map.get(text) {
        return Ok(0);
    }
    let bytes = source.load(text)?;
    map.insert(text.try_clone()?, bytes)?;
    Ok(1)
}

/// Returns how many values it loaded: one for each miss of a cache with the map's limit.
fn read_through<L: Source>(
    map: &mut LruMap<String, Vec<u8>, ByCost>,
    texts: &[String],
    source: &L,
) -> Result<u64, AllocError> {
    references_keep_the_newest::<String, Vec<u8>, RandomState>();
    let mut count = 0u64;
    for text in texts {
        count += load_at_miss(map, text, source)?;
    }
    Ok(count)
}

fn map_within<L: Source>(alloc: Global, limit: u64) -> LruMap<String, Vec<u8>, ByCost> {
    maps_keep_to_their_cost::<String, Vec<u8>, RandomState>();
    LruMap::new(alloc, ByCost::new(limit), [1, 2, 3, 4], 40)
}

/// The map with the larger limit loads at most as many values as the other map.
fn compare<L: Source>(
    alloc: Global,
    texts: &[String],
    limits: (u64, u64),
    source: &L,
) -> Result<(u64, u64), AllocError> {
    crate::erased::lru_theory::a_larger_budget_never_misses_more::<String>();
    let mut small = map_within::<L>(alloc, limits.0);
    let mut large = map_within::<L>(alloc, limits.1);
    Ok((read_through(&mut small, texts, source)?, read_through(&mut large, texts, source)?))
}

fn read_both<L: Source>(
    small: &mut LruMap<String, Vec<u8>, ByCost>,
    large: &mut LruMap<String, Vec<u8>, ByCost>,
    texts: &[String],
    source: &L,
) -> Result<(u64, u64), AllocError> {
    more_capacity_never_misses_more::<String, Vec<u8>, RandomState>();
    Ok((read_through(small, texts, source)?, read_through(large, texts, source)?))
}

/// If each text determines how many bytes its value has, and this number is within the limit, a successful call is a
/// reference.
fn remember<F: FnOnce() -> Vec<u8>>(
    map: &mut LruMap<String, Vec<u8>, ByCost>,
    text: String,
    make: F,
) -> Result<bool, AllocError> {
    gets_that_insert_make_references::<String, Vec<u8>, F, RandomState>();
    let kept = map.ensure_newest(text, make)?;
    Ok(kept)
}

fn try_to_remember<F: FnOnce() -> Result<Vec<u8>, u64>>(
    map: &mut LruMap<String, Vec<u8>, ByCost>,
    text: String,
    make: F,
) -> Result<bool, GetOrInsertError<u64>> {
    gets_that_insert_if_made_make_references::<String, Vec<u8>, u64, F, RandomState>();
    let kept = map.ensure_newest_fallible(text, make)?;
    Ok(kept)
}

/// If the weight of the entry is the cost of its key, and at most the limit, a successful call is a reference.
fn insert_weighed(map: &mut LruMap<u64, String, ByWeight<16>>, key: u64, text: String) -> Result<bool, AllocError> {
    calls_make_references::<u64, String, RandomState>();
    let kept = map.insert(key, text)?;
    Ok(kept)
}

struct Bytes;

impl Source for Bytes {
    fn load(&self, text: &String) -> Result<Vec<u8>, AllocError> {
        let mut bytes = text.try_clone()?.into_vec();
        bytes.push(0)?;
        Ok(bytes)
    }
}

fn are_short(texts: &[String], limit: u64) -> bool {
    for text in texts {
        if text.as_bytes().len() as u64 >= limit {
            return false;
        }
    }
    true
}

fn loads(alloc: Global, texts: &[String], limits: (u64, u64)) -> Option<(u64, u64)> {
    if limits.0 > limits.1 || limits.1 > 1000 || !are_short(texts, limits.0) {
        return None;
    }
    compare(alloc, texts, limits, &Bytes).ok()
}

#[test]
fn larger_limits_load_less() {
    let run = |rt: HostRuntime| -> Result<(), Fail> {
        let mut texts = Vec::new(rt.alloc());
        for key in [1, 22, 1, 333, 22, 1u64] {
            texts.push(format!(in rt.alloc(); "{key}")?)?;
        }
        for (limits, counts) in [((4, 5), (6, 5)), ((8, 9), (5, 3))] {
            check!(rt; loads(rt.alloc(), &texts, limits) == Some(counts));
        }
        Ok(())
    };
    run(HostRuntime).passes();
}
