// Erased from crates/lru_model/src/laws.rt: do not edit.
//! What is proved about inserts and other single calls. Each theorem is the contract of a function that does nothing.
//! More theorems: what an insert keeps (`kept`), insertions into the table (`insertions`), shrinks (`shrinks`), each
//! call (`calls`), calls one after another (`runs`), and maps with `ByBytes` (`bytes`).

#[allow(unused_imports)]
use crate::rattle_std::prelude::*;

use crate::erased::lru_limits::{Insertion, KeyHasher, Limiter, LookupKey};
use crate::rattle_std::hash::Hash;

mod bytes;
mod calls;
mod insertions;
mod kept;
mod runs;
mod shrinks;

pub use bytes::{calls_keep_the_bytes, runs_keep_the_bytes};
pub use calls::{
    calls_add_one_pair, calls_evict_the_oldest, calls_keep_maps, calls_keep_sums, calls_keep_the_budget,
    calls_keep_the_length, calls_keep_the_memory_usage,
};
pub use insertions::try_inserts_pay_for_moves;
pub use kept::{inserts_leave_the_newest, inserts_with_room_are_exact, maps_keep_to_their_length, nothing_is_lost};
pub use runs::{
    runs_begin_with_maps, runs_evict_the_oldest, runs_keep_maps, runs_keep_sums, runs_keep_the_budget,
    runs_keep_the_length, runs_keep_the_memory_usage, runs_pay_for_moves,
};
pub use shrinks::{shrinks_keep_the_list, shrinks_leave_a_tight_table, shrinks_pay_for_moves};

/// If an insert into a map of n entries leaves m entries, and passes p entries to its callback, m + p is at most n + 1
/// (`few`). An insert with a callback is also an `Insert` (`step`).
pub fn inserts_pass_few<K: Eq + Hash, V, I: LookupKey<K>, L: Insertion<K, V, I>, S: KeyHasher<K>>() {}

/// An insert into a table of up to 16 buckets changes the entries as `small_report` (`specs/Exact`) says, unless memory
/// runs out. `small_report` computes whether the table queries the limiter, and how many entries are evicted because
/// growth is refused.
pub fn small_inserts_are_exact<K: Eq + Hash, V, I: LookupKey<K>, L: Insertion<K, V, I>, S: KeyHasher<K>>() {}

/// An insert changes the entries as the `Report` of the table (`specs/Exact`) says (`exact`). Every insert has a report
/// (`given`). Suppose that the limiter and the arguments determine what `on_insert` does (`IsDetermined`), and that two
/// inserts return `Ok`. If their arguments, reports, entries and limiters are equal, their results are equal, and so
/// are the entries and limiters afterwards (`alike`).
pub fn inserts_are_exact_unless_refused<K: Eq + Hash, V, I: LookupKey<K>, L: Insertion<K, V, I>, S: KeyHasher<K>>() {}

/// An insert changes the entries as it would change a plain list without a table (`InsertsInList`), under two premises.
/// First, `on_grow` permits every growth and changes nothing, as in `ByLength` and `Unlimited`. Second, there is a
/// table for the entries, and a table for one entry more (`HasTables`). The insert may still run out of memory.
pub fn granted_inserts_are_exact<K: Eq + Hash, V, I: LookupKey<K>, L: Insertion<K, V, I>, S: KeyHasher<K>>() {}

/// If an insert into a map of n entries grows the table, the new table can hold fewer than 4 * (n + 1) entries.
pub fn inserts_grow_little<K: Eq + Hash, V, I: LookupKey<K>, L: Insertion<K, V, I>, S: KeyHasher<K>>() {}

/// Suppose that the map has entries, but no growth left. If the first free bucket in the search for the new key is
/// deleted, the new entry fills this bucket: the limiter is not queried, and no entry moves (`served`). If the limiter
/// also accepts the new entry, and is not over its limit with this entry, an insert evicts nothing (`added`).
/// Conversely, if an insertion keeps the number of buckets, and evicts and moves nothing, the first free bucket was
/// deleted (`only`).
pub fn deleted_buckets_serve<K: Eq + Hash, V, I: LookupKey<K>, L: Insertion<K, V, I>, S: KeyHasher<K>>() {}

/// The count of moved entries, plus the `potential` (`specs/State`), rises by at most 2 for the entry that the insert
/// stores (`rise`). So inserts moved at most two entries for each stored entry, plus one for each entry that a shrink
/// rehashed (`paid`). The table counts every insertion (`counted`). `rise` and `counted` hold until a count stops at
/// `u64::MAX`.
pub fn inserts_pay_for_moves<K: Eq + Hash, V, I: LookupKey<K>, L: Insertion<K, V, I>, S: KeyHasher<K>>() {}

/// If growth is refused (`IsRefusedGrowth`), the entries that stay and the new entry fill at least half of the capacity
/// (`half`). If memory runs out, the map may have one entry fewer (`without_memory`). If the table has up to 16
/// buckets, only the oldest entry is evicted (`one`).
pub fn refused_growth_keeps_half<K: Eq + Hash, V, L: Limiter<K, V>, S: KeyHasher<K>>() {}

/// If an insertion grows the table, it evicts nothing (`grown`). An insertion evicts entries only if the table needs to
/// grow and cannot: there is no larger table, or the limiter refuses the larger table (`otherwise`). An insertion that
/// runs out of memory evicts entries only if growth was refused (`without_memory`).
pub fn growth_keeps_the_list<K: Eq + Hash, V, L: Limiter<K, V>, S: KeyHasher<K>>() {}

/// If no two keys of a map are equal, a removed key is not in the map afterwards.
pub fn removed_keys_are_absent<K: Eq + Hash, V, I: LookupKey<K>, L: Limiter<K, V>, S: KeyHasher<K>>() {}

/// A reservation keeps the entries, and the counts `moved`, `placed` and `shrunk`.
pub fn reservations_keep_the_list<K: Eq + Hash, V, L: Limiter<K, V>, S: KeyHasher<K>>() {}

/// After a successful reservation for n entries, the growth left is at least n.
pub fn reservations_make_room<K: Eq + Hash, V, L: Limiter<K, V>, S: KeyHasher<K>>() {}

/// If the table of a map uses n bytes, the largest table within a budget of n bytes uses exactly n bytes.
pub fn usages_are_their_budgets<K: Eq + Hash, V, L: Limiter<K, V>, S: KeyHasher<K>>() {}
