// Erased from crates/lru_replay/src/costs.rt: do not edit.
//! The theorems of `references`, for maps that limit the cost of their entries, as `ByCost` and `ByWeight` do.

#[allow(unused_imports)]
use crate::rattle_std::prelude::*;

use crate::erased::lru_limits::KeyHasher;
use crate::rattle_std::hash::Hash;

/// A new map keeps to its cost (`KeepsToCost`) under these premises. The limit is below 2 ^ 63, and below 234,881,023
/// times the cost of each key. An entry takes fewer than 2 ^ 32 - 1 bytes, and the links are wide enough for 2 ^ 31
/// buckets.
pub fn maps_keep_to_their_cost<K: Eq + Hash, V, S: KeyHasher<K>>() {}

/// These calls make a reference if they return `Ok`: an insert, a `try_insert`, and a call of a memo. The weight of the
/// inserted entry must be the cost of its key, and at most the limit. A get and a promotion make a reference if the map
/// contains the key. A value that is written through a get must cost as much as the old value.
pub fn calls_make_references<K: Eq + Hash, V, S: KeyHasher<K>>() {}

/// Like inserts (see `calls_make_references`), `ensure_newest` and `get_or_insert` make a reference if they return
/// `Ok`.
pub fn gets_that_insert_make_references<K: Eq + Hash, V, F: FnOnce() -> V, S: KeyHasher<K>>() {}

/// Like inserts (see `calls_make_references`), the fallible forms of `ensure_newest` and `get_or_insert` make a
/// reference if they return `Ok`.
pub fn gets_that_insert_if_made_make_references<K: Eq + Hash, V, E, F: FnOnce() -> Result<V, E>, S: KeyHasher<K>>() {}

/// After the references of a trace, the map contains the same keys as an LRU cache with this limit of cost (`keys`).
/// The program missed as often as this cache (`misses`). The map counts the misses in `placed` (`stored`). Equal keys
/// must cost the same.
pub fn references_keep_the_newest<K: Eq + Hash, V, S: KeyHasher<K>>() {}

/// Suppose that equal keys cost the same, and that the references of one trace are made on two maps, by any calls. If
/// the map with the smaller limit begins with exactly the newest few keys of the other map, this is still so after the
/// trace (`front`). In this case, it misses at least as often as the other map (`misses`).
pub fn more_capacity_never_misses_more<K: Eq + Hash, V, S: KeyHasher<K>>() {}
