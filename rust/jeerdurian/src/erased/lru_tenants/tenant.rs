// Erased from crates/lru_tenants/src/tenant.rt: do not edit.
//! What calls do to the map of a tenant.

#[allow(unused_imports)]
use crate::rattle_std::prelude::*;

use crate::erased::lru_limits::Budgeted;
use crate::erased::schnellru::{Inserted, KeyHasher, LookupKey, LruMap, laws};
use crate::rattle_std::alloc::AllocError;
use crate::rattle_std::hash::Hash;

pub(crate) mod counted;

pub(crate) fn insert<K: Eq + Hash, V, L: Budgeted<K, V>, S: KeyHasher<K>, F: FnMut(K, V)>(
    map: &mut LruMap<K, V, L, S>,
    key: K,
    value: V,
    sink: &mut F,
) -> Result<bool, AllocError> {
    laws::calls_keep_sums::<K, V, K, L, S>();
    laws::calls_keep_the_budget::<K, V, L, S>();
    map.insert_with(key, value, sink)
}

pub(crate) fn insert_full<K: Eq + Hash, V, L: Budgeted<K, V>, S: KeyHasher<K>, F: FnMut(K, V)>(
    map: &mut LruMap<K, V, L, S>,
    key: K,
    value: V,
    sink: &mut F,
) -> Result<Inserted<V>, AllocError> {
    if rejects(map, &key, &value) {
        return Ok(Inserted { kept: false, unkept: Some(value) });
    }
    laws::calls_keep_sums::<K, V, K, L, S>();
    laws::calls_keep_the_budget::<K, V, L, S>();
    map.insert_full(key, value, sink)
}

fn rejects<K: Eq + Hash, V, L: Budgeted<K, V>, S: KeyHasher<K>>(map: &LruMap<K, V, L, S>, key: &K, value: &V) -> bool {
    !map.limiter().accepts(map.len(), key, value) && !map.contains(key)
}

pub(crate) fn get_or_insert<K: Eq + Hash, V, L: Budgeted<K, V>, S: KeyHasher<K>, F: FnOnce() -> V>(
    map: &mut LruMap<K, V, L, S>,
    key: K,
    make: F,
) -> Result<bool, AllocError> {
    laws::calls_keep_sums::<K, V, K, L, S>();
    laws::calls_keep_the_budget::<K, V, L, S>();
    map.ensure_newest(key, make)
}

pub(crate) fn newest<K: Eq + Hash, V, L: Budgeted<K, V>, S: KeyHasher<K>>(map: &LruMap<K, V, L, S>) -> Option<&V> {
    match map.peek_newest() {
        Some((_, value)) => Some(value),
        None => None,
    }
}

pub(crate) fn remove<K: Eq + Hash, V, L: Budgeted<K, V>, S: KeyHasher<K>, Q: LookupKey<K>>(
    map: &mut LruMap<K, V, L, S>,
    key: &Q,
) -> Option<V> {
    laws::calls_keep_maps::<K, V, K, L, S>();
    laws::calls_keep_sums::<K, V, K, L, S>();
    laws::calls_keep_the_budget::<K, V, L, S>();
    let value = map.remove(key);
    let _len = map.len();
    value
}

pub(crate) fn retain<K: Eq + Hash, V, L: Budgeted<K, V>, S: KeyHasher<K>, F: FnMut(&K, &V) -> bool>(
    map: &mut LruMap<K, V, L, S>,
    keep: F,
) {
    laws::calls_keep_sums::<K, V, K, L, S>();
    laws::calls_keep_the_budget::<K, V, L, S>();
    map.retain(keep);
}

pub(crate) fn clear<K: Eq + Hash, V, L: Budgeted<K, V>, S: KeyHasher<K>>(map: &mut LruMap<K, V, L, S>) {
    laws::calls_keep_sums::<K, V, K, L, S>();
    laws::calls_keep_the_budget::<K, V, L, S>();
    map.clear();
    let _len = map.len();
}

pub(crate) fn set_budget<K: Eq + Hash, V, L: Budgeted<K, V>, S: KeyHasher<K>, F: FnMut(K, V)>(
    map: &mut LruMap<K, V, L, S>,
    budget: u64,
    sink: &mut F,
) {
    laws::calls_keep_sums::<K, V, K, L, S>();
    laws::calls_keep_the_budget::<K, V, L, S>();
    map.limiter_mut().set_budget(budget);
    map.trim_with(sink);
}

pub(crate) fn empty<K: Eq + Hash, V, L: Budgeted<K, V>, S: KeyHasher<K>, F: FnMut(K, V)>(
    map: &mut LruMap<K, V, L, S>,
    sink: &mut F,
) -> usize {
    let count = map.len();
    'pops: while let Some((key, value)) = map.pop_oldest() {
        sink(key, value);
    }
    count
}
