// Erased from crates/lru_replay/src/references.rt: do not edit.
//! Theorems on programs that make references on a map with `ByLength`. `docs/THEORY.md` explains each.

#[allow(unused_imports)]
use crate::rattle_std::prelude::*;

use crate::erased::lru_limits::{Admission, ByLength, Insertion, KeyHasher, Limiter};
use crate::rattle_std::hash::Hash;

/// These calls make a reference if they return `Ok`: an insert (`inserts`), a `try_insert` (`tries`), and a call of a
/// memo (`remembers`). If the map contains the key, a get (`gets`) and a promotion (`promotes`) make a reference. The
/// program may write to the value that a get lends. A reference to a key is also a reference to each equal key
/// (`equal`).
pub fn calls_make_references<K: Eq + Hash, V, S: KeyHasher<K>>() {}

/// If `ensure_newest` or `get_or_insert`, with the closure `make`, returns `Ok`, the call makes a reference.
pub fn gets_that_insert_make_references<K: Eq + Hash, V, F: FnOnce() -> V, S: KeyHasher<K>>() {}

/// If the fallible form of `ensure_newest` or `get_or_insert` returns `Ok`, the call makes a reference.
pub fn gets_that_insert_if_made_make_references<K: Eq + Hash, V, E, F: FnOnce() -> Result<V, E>, S: KeyHasher<K>>() {}

/// Says what other calls do to the keys. `promotes` covers gets and promotions, even if the key is not in the map.
/// `looks` covers each call that changes nothing.
pub fn calls_change_the_keys<K: Eq + Hash, V, S: KeyHasher<K>>() {}

/// If a program made the references of a trace, and then makes one more reference, it made the references of the longer
/// trace. The number of misses stays if the last reference hits (`hits`), and rises by one otherwise (`misses`). The
/// map still keeps to its length (`keeps`).
pub fn programs_make_references<K: Eq + Hash, V, S: KeyHasher<K>>() {}

/// After the references of a trace, the map contains the `max_length` keys that were referenced last (`keys`). A
/// reference misses exactly if it is the first reference to its key, or if its reuse distance is at least `max_length`
/// (`misses`). The keys that the map had before the trace count as earlier references, the oldest key first. If
/// `max_length` is not 0, the map counts the misses in `placed`, up to `u64::MAX` (`stored`).
pub fn references_keep_the_newest<K: Eq + Hash, V, S: KeyHasher<K>>() {}

/// Suppose that the references of one trace are made on two maps, by any calls. If a smaller map of n places has
/// exactly the n newest keys of the larger map before the trace, this is still so after the trace (`front`). If the
/// keys of the smaller map are included in the keys of the larger map before the trace (`IsIncluded`), the smaller map
/// misses at least as often as the larger map (`misses`).
pub fn more_capacity_never_misses_more<K: Eq + Hash, V, S: KeyHasher<K>>() {}

/// If the keys of a smaller map are included in the keys of a larger map, they are included after the same calls, too
/// (`included`). So the larger map finds each key that the smaller map finds (`finds`). The calls are references, or
/// calls of `calls_change_the_keys`.
pub fn a_smaller_map_is_included<K: Eq + Hash, V, S: KeyHasher<K>>() {}

/// Take a map with `ByLength(k)` that begins with any keys, and any policy of h ≤ k places, even one that knows the
/// trace in advance. The policy begins with the keys `first`, and loads (or bypasses) keys `paid` times for the same
/// references. If the policy stores each referenced key, the map misses at most `k / (k + 1 - h) * paid + length first`
/// times. The bound holds for a policy that may load keys ahead (`loads`), and for a policy that loads on demand and
/// begins with at most h keys (`demands`). If the policy need not store referenced keys, and h < k, the map misses at
/// most `k / (k - h) * paid + length first` times (`bypasses`).
pub fn maps_are_competitive<K: Eq + Hash, V, S: KeyHasher<K>>() {
    references_keep_the_newest::<K, V, S>();
    crate::erased::lru_theory::lru_is_competitive::<K>();
}
