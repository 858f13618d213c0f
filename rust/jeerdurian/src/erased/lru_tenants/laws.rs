// Erased from crates/lru_tenants/src/laws.rt: do not edit.
//! Laws about calls. Each law is the contract of a function that does nothing. A caller that needs the law calls this
//! function.

#[allow(unused_imports)]
use crate::rattle_std::prelude::*;

use crate::erased::lru_limits::Budgeted;
use crate::erased::lru_tenants::cache::TenantCache;
use crate::erased::schnellru::KeyHasher;
use crate::rattle_std::hash::Hash;

/// In any list of calls, each call finds the named tenant as the previous call on this tenant left it. Calls on other
/// tenants may come between (`own`). If no call names a tenant, the tenant does not change (`others`).
///
/// The premise: each call changes only the tenant that it names, as each clause with `On` says.
pub fn each_tenant_has_its_own_run<N: Eq + Hash, K: Eq + Hash, V, L: Budgeted<K, V>, S: KeyHasher<K>>() {}

/// If there is a total limit, the costs of all entries add up to at most this limit.
pub fn costs_are_within_the_total_limit<N: Eq + Hash, K: Eq + Hash, V, L: Budgeted<K, V>, S: KeyHasher<K> + Copy>(
    cache: &TenantCache<N, K, V, L, S>,
) {
    let _len = cache.len();
    let _sum = cache.total_budget();
}

/// If no call of a list names a tenant of a pool, the tenant keeps its share, and the calls may evict only its oldest
/// entries. If the tenant's cost is within its share, its map does not change (`others`).
///
/// The premise: each call spares every tenant that the call does not name, as the clause `spares` of `put` says. Other
/// calls change only the tenant that they name (`leaves`). If two calls that name the same tenant spare the other
/// tenants, the two calls together spare them, too (`joins`).
pub fn calls_spare_other_tenants<N: Eq + Hash, K: Eq + Hash, V, L: Budgeted<K, V>, S: KeyHasher<K>>() {}
