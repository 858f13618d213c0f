// Erased from crates/lru_tenants/src/pool/part.rt: do not edit.
#[allow(unused_imports)]
use crate::rattle_std::prelude::*;

use crate::erased::lru_limits::Budgeted;
use crate::erased::schnellru::{KeyHasher, LruMap, laws};
use crate::rattle_std::alloc::Global;
use crate::rattle_std::hash::Hash;

/// A tenant's share of the limit, and its map.
pub(super) type Part<K, V, L, S> = (u64, LruMap<K, V, L, S>);

pub(super) fn excess<K: Eq + Hash, V, L: Budgeted<K, V>, S: KeyHasher<K>>(own: &Part<K, V, L, S>) -> u64 {
    let (share, map) = own;
    map.limiter().account().saturating_sub(*share)
}

pub(super) fn cost_of<K: Eq + Hash, V, L: Budgeted<K, V>, S: KeyHasher<K>>(map: &LruMap<K, V, L, S>) -> u64 {
    map.limiter().account()
}

// Returns `None` only in Rust, where costs may be wrong.
pub(super) fn drop_oldest<K: Eq + Hash, V, L: Budgeted<K, V>, S: KeyHasher<K>>(
    own: &mut Part<K, V, L, S>,
) -> Option<u64> {
    laws::calls_keep_sums::<K, V, K, L, S>();
    laws::calls_keep_the_budget::<K, V, L, S>();
    let (_, map) = own;
    let before = cost_of(map);
    let _oldest = map.pop_oldest()?;
    let after = cost_of(map);
    Some(before - after)
}

pub(super) fn opened<K: Eq + Hash, V, L: Budgeted<K, V>, S: KeyHasher<K>>(
    alloc: Global,
    hasher: S,
    limit: u64,
    share: u64,
) -> Part<K, V, L, S> {
    laws::runs_begin_with_maps::<K, V, L, S>();
    let limiter = L::with_budget(limit);
    let map = LruMap::with_limiter_and_hasher(alloc, limiter, hasher);
    (share, map)
}
