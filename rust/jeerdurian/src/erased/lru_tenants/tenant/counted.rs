// Erased from crates/lru_tenants/src/tenant/counted.rt: do not edit.
//! What counted calls do to the map of a tenant.

#[allow(unused_imports)]
use crate::rattle_std::prelude::*;

use crate::erased::lru_caches::Counts;
use crate::erased::lru_limits::Budgeted;
use crate::erased::lru_tenants::counting::Counting;
use crate::erased::lru_tenants::tenant::insert;
use crate::erased::schnellru::{KeyHasher, LookupKey, LruMap};
use crate::rattle_std::alloc::AllocError;
use crate::rattle_std::hash::Hash;

pub(crate) fn set_counts<K: Eq + Hash, V, L: Budgeted<K, V>, S: KeyHasher<K>>(
    map: &mut LruMap<K, V, Counting<L>, S>,
    counts: Counts,
) {
    map.limiter_mut().counts = counts;
    let _len = map.len();
}

fn count_look_up<K: Eq + Hash, V, L: Budgeted<K, V>, S: KeyHasher<K>>(
    map: &mut LruMap<K, V, Counting<L>, S>,
    found: bool,
) {
    let mut counts = map.limiter().counts;
    counts.count_look_up(found);
    set_counts(map, counts);
}

pub(crate) fn look_up<K: Eq + Hash, V, L: Budgeted<K, V>, S: KeyHasher<K>, Q: LookupKey<K>>(
    map: &mut LruMap<K, V, Counting<L>, S>,
    key: &Q,
) -> bool {
    let there = map.promote(key);
    count_look_up(map, there);
    there
}

pub(crate) fn insert_counted<K: Eq + Hash, V, L: Budgeted<K, V>, S: KeyHasher<K>>(
    map: &mut LruMap<K, V, Counting<L>, S>,
    key: K,
    value: V,
) -> Result<bool, AllocError> {
    let others = map.len() - map.contains(&key) as usize;
    insert_beside(map, key, value, others)
}

// `others` is the number of entries with other keys.
fn insert_beside<K: Eq + Hash, V, L: Budgeted<K, V>, S: KeyHasher<K>>(
    map: &mut LruMap<K, V, Counting<L>, S>,
    key: K,
    value: V,
    others: usize,
) -> Result<bool, AllocError> {
    let done = insert(map, key, value, &mut |_, _| {});
    let is_there = is_kept(&done);
    let evicted = others.saturating_sub(map.len() - is_there as usize);
    let mut counts = map.limiter().counts;
    counts.count_insert(&done, evicted as u64);
    set_counts(map, counts);
    done
}

pub(crate) fn get_or_insert_counted<K: Eq + Hash, V, L: Budgeted<K, V>, S: KeyHasher<K>, F: FnOnce() -> V>(
    map: &mut LruMap<K, V, Counting<L>, S>,
    key: K,
    make: F,
) -> Result<bool, AllocError> {
    if map.promote(&key) {
        count_look_up(map, true);
        return Ok(true);
    }
    let others = map.len();
    let done = insert_beside(map, key, make(), others);
    count_look_up(map, false);
    done
}

fn is_kept(done: &Result<bool, AllocError>) -> bool {
    match done {
        Ok(kept) => *kept,
        Err(_) => false,
    }
}
