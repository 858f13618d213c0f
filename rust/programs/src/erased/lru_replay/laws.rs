// Erased from crates/lru_replay/src/laws.rt: do not edit.
//! Laws on runs of calls.

#[allow(unused_imports)]
use crate::rattle_std::prelude::*;

use crate::erased::lru_limits::{Insertion, KeyHasher};
use crate::erased::lru_model::laws;
use crate::rattle_std::hash::Hash;

/// A list of calls is a run of steps of the map, so the laws on runs hold for the list (`calls`). A list that
/// `run_summing` carries out is a run of steps, too. If this list sets no limiter, each write keeps the cost of its
/// entry (`summing`).
pub fn lists_are_runs<K: Eq + Hash, V, L: Insertion<K, V, K>, S: KeyHasher<K>>() {}

/// A run has the same effect on a map as on a list of pairs with distinct keys (`exact`), under two premises. First,
/// the limiter permits every growth, as `ByLength`, `ByCost` and the unlimited limiters do. Second, there is a table
/// for each number of pairs that the map may have. For a map of n pairs and a run of m calls, a table for 8 * (n + m +
/// 1) pairs is enough (`reached`).
pub fn granted_calls_are_exact<K: Eq + Hash, V, L: Insertion<K, V, K>, S: KeyHasher<K>>() {
    laws::granted_inserts_are_exact::<K, V, K, L, S>();
    laws::calls_add_one_pair::<K, V, K, L, S>();
}
