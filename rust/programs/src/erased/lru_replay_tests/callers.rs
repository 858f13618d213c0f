// Erased from crates/lru_replay_tests/src/callers.rt: do not edit.
//! Functions that make runs, as in docs/CALLING.md. Their contracts follow from laws on runs.

#[allow(unused_imports)]
use crate::rattle_std::prelude::*;

use crate::erased::lru_limits::{Insertion, KeyHasher, Limiter};
use crate::erased::schnellru::{Both, ByCost, ByLength, ByMemoryUsage, LruMap, RandomState, laws};
use crate::programs::lru_replay::laws::{granted_calls_are_exact, lists_are_runs};
use crate::programs::lru_replay::{Answer, Call, run_calls, run_summing};
use crate::rattle_std::alloc::{AllocError, Global};

/// Two inserts keep a map within its limits. Entries of other keys keep their order, and only the oldest of them may
/// be evicted. The stored entries pay for the moves of entries (`PaysForMoves`).
fn put_both(
    alloc: Global,
    map: &mut LruMap<u64, u64, Both<ByLength, ByMemoryUsage>>,
    first: (u64, u64),
    second: (u64, u64),
) -> Result<Vec<Answer<u64, u64>>, AllocError> {
    lists_are_runs::<u64, u64, Both<ByLength, ByMemoryUsage>, RandomState>();
    laws::runs_keep_the_length::<u64, u64, u64, Both<ByLength, ByMemoryUsage>, RandomState>();
    laws::runs_keep_the_memory_usage::<u64, u64, u64, Both<ByLength, ByMemoryUsage>, RandomState>();
    laws::runs_evict_the_oldest::<u64, u64, u64, Both<ByLength, ByMemoryUsage>, RandomState>();
    laws::runs_pay_for_moves::<u64, u64, u64, Both<ByLength, ByMemoryUsage>, RandomState>();
    let _len = map.len();
    let calls = vec![in alloc;
        Call::Insert(first.0, first.1),
        Call::Insert(second.0, second.1),
    ]?;
    run_calls(alloc, map, calls)
}

/// Two inserts keep a map within its limit of cost.
fn charge_both(
    alloc: Global,
    map: &mut LruMap<u64, u64, ByCost>,
    first: (u64, u64),
    second: (u64, u64),
) -> Result<Vec<Answer<u64, u64>>, AllocError> {
    lists_are_runs::<u64, u64, ByCost, RandomState>();
    laws::runs_keep_sums::<u64, u64, u64, ByCost, RandomState>();
    laws::runs_keep_the_budget::<u64, u64, ByCost, RandomState>();
    let calls = vec![in alloc;
        Call::Insert(first.0, first.1),
        Call::Insert(second.0, second.1),
    ]?;
    run_summing(alloc, map, calls)
}

/// Makes m calls on a map with a maximum length and n entries. If there is a table for 8 * (n + m + 1) entries, the
/// calls change the map as they would change a list without a table.
fn call_on_list<S: KeyHasher<u64>>(
    alloc: Global,
    map: &mut LruMap<u64, u64, ByLength, S>,
    calls: Vec<Call<u64, u64, ByLength>>,
) -> Result<Vec<Answer<u64, u64>>, AllocError> {
    granted_calls_are_exact::<u64, u64, ByLength, S>();
    let _len = map.len();
    let answers = run_calls(alloc, map, calls)?;
    Ok(answers)
}
