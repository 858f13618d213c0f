// Erased from crates/schnellru_tests/src/exact.rt: do not edit.
//! Callers of the laws on exact inserts.

#[allow(unused_imports)]
use crate::rattle_std::prelude::*;

use crate::erased::schnellru::{ByLength, Insertion, KeyHasher, LruMap, RandomState, laws};
use crate::rattle_std::alloc::AllocError;
use crate::rattle_std::hash::Hash;

fn put_exactly<K: Eq + Hash, V, L: Insertion<K, V, K>, S: KeyHasher<K>>(
    map: &mut LruMap<K, V, L, S>,
    key: K,
    value: V,
) -> Result<bool, AllocError> {
    laws::inserts_are_exact_unless_refused::<K, V, K, L, S>();
    laws::small_inserts_are_exact::<K, V, K, L, S>();
    map.insert(key, value)
}

fn put_into_both(
    one: &mut LruMap<u64, u64>,
    other: &mut LruMap<u64, u64>,
    key: u64,
    value: u64,
) -> Result<(bool, bool), AllocError> {
    laws::granted_inserts_are_exact::<u64, u64, u64, ByLength, RandomState>();
    laws::inserts_are_exact_unless_refused::<u64, u64, u64, ByLength, RandomState>();
    Ok((one.insert(key, value)?, other.insert(key, value)?))
}
