// Erased from crates/lru_model/src/laws/shrinks.rt: do not edit.
#[allow(unused_imports)]
use crate::rattle_std::prelude::*;

use crate::erased::lru_limits::{KeyHasher, Limiter};
use crate::rattle_std::hash::Hash;

/// A shrink keeps the entries, the limiter, and the counts `moved` and `placed`.
pub fn shrinks_keep_the_list<K: Eq + Hash, V, L: Limiter<K, V>, S: KeyHasher<K>>() {}

/// If a shrink makes the table smaller, it rehashes and counts each entry, and the `potential` (`specs/State`) is then
/// at most the number of entries (`shrunk`). If the table keeps its size, the shrink changes nothing (`kept`).
pub fn shrinks_pay_for_moves<K: Eq + Hash, V, L: Limiter<K, V>, S: KeyHasher<K>>() {}

/// A shrink raises neither the number of buckets (`fewer`) nor the bytes that the table takes (`usage`). If a shrink
/// made the table smaller, a second shrink finds nothing to do (`again`).
pub fn shrinks_leave_a_tight_table<K: Eq + Hash, V, L: Limiter<K, V>, S: KeyHasher<K>>() {}
