// Erased from crates/lru_theory/src/lib.rt: do not edit.
//! Traces of references to keys: recency lists, reuse distances, and the misses of an LRU cache of n places.
//!
//! The functions do nothing: their contracts are the theorems. `docs/THEORY.md` explains each theorem.

#[allow(unused_imports)]
use crate::rattle_std::prelude::*;

/// If an LRU cache of n places contains the n keys that were referenced last, this is still so after any trace
/// (`keys`). The cache misses exactly at the references whose reuse distance is at least n, and at the first reference
/// to each key (`misses`).
pub fn a_cache_is_the_newest<K: Eq>() {}

/// More places never mean more misses.
pub fn more_places_never_miss_more<K: Eq>() {}

/// Take any policy with h places, even one that knows the whole trace. Take an LRU cache of k ≥ h places that begins
/// with any keys. The policy begins with the keys `first`, and pays `paid` times.
///
/// - If the policy stores each referenced key, and may load keys ahead, LRU misses at most
///   `k / (k + 1 - h) * paid + length first` times (`loads`).
///
/// - The same bound holds for a demand policy that begins with at most h keys (`demands`).
///
/// - If the policy need not store referenced keys, and k > h, LRU misses at most `k / (k - h) * paid + length first`
///   times (`bypasses`).
pub fn lru_is_competitive<K: Eq>() {}

/// Take a policy with h places that may load keys ahead, begins with at most h keys, and pays `paid` times. Some demand
/// policy with h places and the same first keys misses at most `paid` times.
pub fn loading_ahead_gains_nothing<K: Eq>() {}

/// A cache of n places is *included* in a cache of m ≥ n places if the larger cache contains the keys of the smaller
/// cache, in the same order, and at most m - n more keys. Any calls (`KeyCall`) keep the smaller cache included
/// (`included`). So the larger cache finds each key that the smaller cache finds (`finds`). In a trace, it misses at
/// most as often (`misses`).
pub fn a_smaller_cache_is_included<K: Eq>() {}

/// One list of places holds the keys of LRU caches of every size, even if keys are removed. If no call is a promotion
/// (`promotes`), the cache of n places contains exactly the keys in the first n places (`keys`). So this cache contains
/// a key if fewer than n places come before the key (`finds`). If all calls are references, the number of misses is the
/// same as for a trace (`misses`).
pub fn deletes_leave_places<K: Eq>() {}

/// Suppose that the cache with the smaller budget has exactly the newest few keys of the other cache. This is still so
/// after any trace (`front`), and the smaller cache misses at least as often as the other cache (`misses`).
pub fn a_larger_budget_never_misses_more<K: Eq>() {}

/// Suppose that equal keys cost the same. If a cache with the limit n contains the longest prefix of the recency list
/// that costs at most n, this is still so after any trace (`keys`). A key alone may cost more than n. The cache misses
/// exactly at the references to keys that need more than n (`needs`), and at the first reference to each key
/// (`misses`).
pub fn a_budget_keeps_the_newest<K: Eq>() {}

/// If a policy that stores each referenced key pays `paid` times, MIN misses at most `paid` times. The policy may load
/// keys ahead (`loads`), or only on demand (`demands`). The same holds for a policy that need not store referenced
/// keys, and MIN with bypass (`bypasses`). All these policies have n places, and begin with no keys. MIN is itself a
/// policy of the first kind, if n is not 0 (`min`), and MIN with bypass is a policy of the second kind (`bypass`).
pub fn min_is_best<K: Eq>() {}

/// MIN has h ≥ 1 places, and begins with no keys. LRU has k ≥ h places, and begins with any keys. LRU misses at most
/// `k / (k + 1 - h)` times as often as MIN (`min`). If k > h, LRU misses at most `k / (k - h)` times as often as MIN
/// with bypass (`bypass`). An LRU cache of h places that begins with no keys misses at least as often as MIN (`least`).
pub fn lru_is_near_min<K: Eq>() {}
