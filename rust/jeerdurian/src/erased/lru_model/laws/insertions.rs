// Erased from crates/lru_model/src/laws/insertions.rt: do not edit.
//! What is proved of all insertions into the table, including the insertions of `try_insert`.

#[allow(unused_imports)]
use crate::rattle_std::prelude::*;

use crate::erased::lru_limits::{Admission, KeyHasher};
use crate::rattle_std::hash::Hash;

/// A `try_insert` pays for its insertions into the table, even if it reserves growth. The number of insertions, plus
/// the `potential` (`specs/State`), rises by at most 3 (`rise`), and `PaysForInsertions` holds (`stored`). If each
/// reservation finds no growth left, `PaysForInsertions` also holds for any sequence of calls, including `try_insert`
/// (`runs`).
pub fn try_inserts_pay_for_moves<K: Eq + Hash, V, L: Admission<K, V>, S: KeyHasher<K>>() {}
