// Erased from crates/test_maps/src/maps.rt: do not edit.
//! Maps from numbers to numbers, and what a test looks at in them.
#[allow(unused_imports)]
use crate::rattle_std::prelude::*;

use crate::erased::schnellru::{ByLength, Insertion, Limiter, LruMap, RandomState};
use crate::rattle_std::alloc::{AllocError, Global};
use crate::rattle_std::hash::BuildHasher;
use crate::rattle_std::ops::RangeInclusive;

pub fn map_of<L: Limiter<u64, u64>>(alloc: Global, limiter: L) -> LruMap<u64, u64, L, RandomState> {
    LruMap::new(alloc, limiter, [1, 2, 3, 4], 16)
}

/// Gives the map the entries (1, 10), (2, 20) and (3, 30), and a limit of three entries.
pub fn fill(map: &mut LruMap<u64, u64>) -> bool {
    map.clear();
    *map.limiter_mut() = ByLength::new(3);
    insert_all(map, 1..=3) == Ok(3)
}

// The prover takes less time for `is_pair` and `is_value` than for the comparisons in them.
pub fn is_pair(entry: Option<(&u64, &u64)>, key: u64, value: u64) -> bool {
    entry == Some((&key, &value))
}

pub fn is_value(found: Option<&u64>, value: u64) -> bool {
    found == Some(&value)
}

fn insert<L: Insertion<u64, u64, u64>, S: BuildHasher>(
    map: &mut LruMap<u64, u64, L, S>,
    n: u64,
) -> Result<bool, AllocError> {
    map.insert(n, n.wrapping_mul(10))
}

pub fn insert_all<L: Insertion<u64, u64, u64>, S: BuildHasher>(
    map: &mut LruMap<u64, u64, L, S>,
    numbers: RangeInclusive<u64>,
) -> Result<u64, AllocError> {
    let mut taken = 0u64;
    for n in numbers {
        if insert(map, n)? {
            taken = taken.saturating_add(1);
        }
    }
    Ok(taken)
}
