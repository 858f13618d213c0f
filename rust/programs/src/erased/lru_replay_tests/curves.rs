// Erased from crates/lru_replay_tests/src/curves.rt: do not edit.
//! The curve of a trace gives the misses of a map.

#[allow(unused_imports)]
use crate::rattle_std::prelude::*;

use crate::erased::lru_trace::Curve;
use crate::programs::lru_replay_tests::misses::misses_on_map;
use crate::rattle_std::alloc::{AllocError, Global};

fn curve_of(alloc: Global, texts: &[String]) -> Result<Curve, AllocError> {
    let mut curve = Curve::new(alloc)?;
    for text in texts {
        curve.refer(text)?;
    }
    Ok(curve)
}

/// Counts the misses of the texts in a new map of `length` entries. Returns the count of a curve, and the count of the
/// map itself.
fn predict(alloc: Global, texts: &[String], length: u32) -> Result<(u64, u64), AllocError> {
    let curve = curve_of(alloc, texts)?;
    Ok((curve.misses(length as usize), misses_on_map(alloc, texts, length)?))
}
