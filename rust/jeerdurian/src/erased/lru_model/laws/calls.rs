// Erased from crates/lru_model/src/laws/calls.rt: do not edit.
//! What is proved of every call. A step is the change that one call makes to a map (`specs/Runs`). `Step` describes a
//! call that does not set the limiter. `AnyStep` also describes a change of the limiter, and a write to a value.

#[allow(unused_imports)]
use crate::rattle_std::prelude::*;

use crate::erased::lru_limits::{Budgeted, Insertion, KeyHasher, LookupKey};
use crate::rattle_std::hash::Hash;

/// If no two keys are equal before a call, no two keys are equal after the call (`keys`). If `IsMap` holds before a
/// call, and the call leaves a sound table, `IsMap` still holds (`map`). The clause `map` of each call ensures that the
/// table is sound.
pub fn calls_keep_maps<K: Eq + Hash, V, I: LookupKey<K>, L: Insertion<K, V, I>, S: KeyHasher<K>>() {}

/// If the running total of the limiter is the sum of the costs of the entries, this is still true after each `Step`.
/// The premise `IsAccount` is a law of `Summing`.
pub fn calls_keep_sums<K: Eq + Hash, V, I: LookupKey<K>, L: Insertion<K, V, I>, S: KeyHasher<K>>() {}

/// Suppose that the limiter limits the length to `most` entries (`LimitsLength`), as `ByLength` does. No `Step` changes
/// this limit (`limit`). If there are at most `most` entries before a `Step`, this is still true after the `Step`
/// (`length`).
pub fn calls_keep_the_length<K: Eq + Hash, V, I: LookupKey<K>, L: Insertion<K, V, I>, S: KeyHasher<K>>() {}

/// Suppose that the limiter permits only tables of at most `most` bytes (`LimitsMemory`), as `ByMemoryUsage` does,
/// alone or in `Storing` or `Both`. No `Step` changes this limit (`limit`). If the table takes at most `most` bytes
/// before a `Step`, this is still true after the `Step` (`usage`).
pub fn calls_keep_the_memory_usage<K: Eq + Hash, V, I: LookupKey<K>, L: Insertion<K, V, I>, S: KeyHasher<K>>() {}

/// Suppose that the limiter has a budget, as `ByCost` and `ByWeight` have. No `Step` changes the budget (`budget`). If
/// the running total is the sum of the costs of the entries, and is at most the budget, it is still at most the budget
/// after each `Step` (`total`).
pub fn calls_keep_the_budget<K: Eq + Hash, V, L: Budgeted<K, V>, S: KeyHasher<K>>() {}

/// Each `AnyStep` adds at most one entry.
pub fn calls_add_one_pair<K: Eq + Hash, V, I: LookupKey<K>, L: Insertion<K, V, I>, S: KeyHasher<K>>() {}

/// Consider the entries whose keys a call does not name. The call evicts only the oldest of these entries, and keeps
/// the order of the rest (`others`). This clause excludes `pop_newest`, which removes the newest entry. A call names
/// the key that it inserts, updates, looks up or removes, and the key whose value it writes. A retain names the keys
/// that its closure rejects.
///
/// An insert or an update evicts only the oldest entries. But if the limiter rejects the new value, the call removes
/// only the entry of the given key (`given`).
pub fn calls_evict_the_oldest<K: Eq + Hash, V, I: LookupKey<K>, L: Insertion<K, V, I>, S: KeyHasher<K>>() {}
