// Erased from crates/lru_tenants/src/runs.rt: do not edit.
#[allow(unused_imports)]
use crate::rattle_std::prelude::*;

use crate::erased::lru_limits::Budgeted;
use crate::erased::lru_tenants::cache::TenantCache;
use crate::erased::lru_tenants::call::{TenantAnswer, TenantCall};
use crate::erased::lru_tenants::error::TenantError;
use crate::erased::lru_tenants::laws::costs_are_within_the_total_limit;
use crate::erased::schnellru::KeyHasher;
use crate::rattle_std::alloc::{AllocError, Global};
use crate::rattle_std::hash::Hash;

/// Carries out the calls in order, and returns one answer for each.
///
/// Each call finds the cache as the previous call left it (`run`), and so the named tenant as the previous call on this
/// tenant left it (`own`).
///
/// Cost: the costs of the calls, and one allocation for the answers.
///
/// # Errors
///
/// Out of memory for the answers.
pub fn run_tenants<N: Copy + Eq + Hash, K: Copy + Eq + Hash, V: Copy, L: Budgeted<K, V>, S: KeyHasher<K> + Copy>(
    alloc: Global,
    cache: &mut TenantCache<N, K, V, L, S>,
    calls: Vec<TenantCall<N, K, V>>,
) -> Result<Vec<TenantAnswer<V>>, AllocError> {
    let _len = cache.len();
    let mut answers = Vec::with_capacity(alloc, calls.len())?;
    for call in calls {
        answers.push_reserved(make_tenant_call(cache, call));
    }
    costs_are_within_the_total_limit(cache);
    Ok(answers)
}

fn make_tenant_call<N: Copy + Eq + Hash, K: Copy + Eq + Hash, V: Copy, L: Budgeted<K, V>, S: KeyHasher<K> + Copy>(
    cache: &mut TenantCache<N, K, V, L, S>,
    call: TenantCall<N, K, V>,
) -> TenantAnswer<V> {
    let answer = answer_to(cache, call);
    let _len = cache.len();
    answer
}

fn answer_to<N: Copy + Eq + Hash, K: Copy + Eq + Hash, V: Copy, L: Budgeted<K, V>, S: KeyHasher<K> + Copy>(
    cache: &mut TenantCache<N, K, V, L, S>,
    call: TenantCall<N, K, V>,
) -> TenantAnswer<V> {
    match call {
        TenantCall::Open(name, budget) => TenantAnswer::Opened(cache.open(name, budget)),
        TenantCall::Put(name, key, value) => TenantAnswer::Put(cache.put(&name, key, value)),
        TenantCall::Get(name, key) => TenantAnswer::Got(get(cache, &name, &key)),
        TenantCall::Cost(name) => TenantAnswer::Cost(cache.cost(&name)),
        TenantCall::Close(name) => TenantAnswer::Closed(cache.close(&name)),
    }
}

fn get<N: Eq + Hash, K: Eq + Hash, V: Copy, L: Budgeted<K, V>, S: KeyHasher<K> + Copy>(
    cache: &mut TenantCache<N, K, V, L, S>,
    name: &N,
    key: &K,
) -> Result<Option<V>, TenantError> {
    match cache.get(name, key) {
        Ok(value) => Ok(value.copied()),
        Err(error) => Err(error),
    }
}
