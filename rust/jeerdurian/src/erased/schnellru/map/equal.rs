// Erased from crates/schnellru/src/map/equal.rt: do not edit.
#[allow(unused_imports)]
use crate::rattle_std::prelude::*;

use crate::erased::lru_limits::{KeyHasher, Limiter};
use crate::erased::schnellru::map::LruMap;
use crate::rattle_std::hash::Hash;

/// Maps are equal if they have equal entries in the same order of use. The limiters, hashers and tables may differ.
///
/// Cost: `O(1)` if the lengths differ, else `O(n)` for n entries.
///
/// Follows `LinkedHashMap` of the crate `hashlink`. A `get` may make equal maps unequal.
impl<K: Eq + Hash, V: PartialEq, L: Limiter<K, V>, S: KeyHasher<K>> PartialEq for LruMap<K, V, L, S> {
    fn eq(&self, other: &Self) -> bool {
        self.entries == other.entries
    }
}
