// Erased from crates/lru_replay/src/calls/summing.rt: do not edit.
#[allow(unused_imports)]
use crate::rattle_std::prelude::*;

use crate::erased::schnellru::laws::runs_keep_sums;
use crate::erased::schnellru::{KeyHasher, LruMap, Summing};
use crate::programs::lru_replay::calls::make_call;
use crate::programs::lru_replay::{Answer, Call};
use crate::rattle_std::alloc::{AllocError, Global};
use crate::rattle_std::hash::Hash;

/// Carries out the calls on the map like `run_calls`, but makes no call that would make the limiter's total wrong.
///
/// If a `Write` would change the cost of its entry, or a `SetLimiter` has another total, the answer is `CostDiffers`,
/// and nothing changes.
///
/// Cost: as `run_calls`, plus one more look-up for each `Write`.
///
/// # Errors
///
/// Out of memory for the answers. No call was made.
pub fn run_summing<K, V, L, S>(
    alloc: Global,
    map: &mut LruMap<K, V, L, S>,
    calls: Vec<Call<K, V, L>>,
) -> Result<Vec<Answer<K, V>>, AllocError>
where
    K: Copy + Eq + Hash,
    V: Copy,
    L: Summing<K, V>,
    S: KeyHasher<K>,
{
    let mut answers = Vec::with_capacity(alloc, calls.len())?;
    for call in calls {
        answers.push_reserved(make_summing_call(alloc, map, call));
    }
    Ok(answers)
}

fn make_summing_call<K, V, L, S>(alloc: Global, map: &mut LruMap<K, V, L, S>, call: Call<K, V, L>) -> Answer<K, V>
where
    K: Copy + Eq + Hash,
    V: Copy,
    L: Summing<K, V>,
    S: KeyHasher<K>,
{
    runs_keep_sums::<K, V, K, L, S>();
    if !keeps_cost(map, &call) {
        return Answer::CostDiffers;
    }
    make_call(alloc, map, call)
}

fn keeps_cost<K, V, L, S>(map: &LruMap<K, V, L, S>, call: &Call<K, V, L>) -> bool
where
    K: Eq + Hash,
    L: Summing<K, V>,
    S: KeyHasher<K>,
{
    let _len = map.len();
    match call {
        Call::Write(key, value) => match map.peek_key_value(key) {
            Some((stored, old)) => L::cost_of(stored, value) == L::cost_of(stored, old),
            None => true,
        },
        Call::SetLimiter(limiter) => limiter.account() == map.limiter().account(),
        _ => true,
    }
}
