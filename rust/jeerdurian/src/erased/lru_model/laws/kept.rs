// Erased from crates/lru_model/src/laws/kept.rt: do not edit.
//! What an insert keeps: it loses no entry, and with `ByLength` it leaves the newest entries.

#[allow(unused_imports)]
use crate::rattle_std::prelude::*;

use crate::erased::lru_limits::{ByLength, Insertion, KeyHasher, Limiter, LookupKey};
use crate::rattle_std::hash::Hash;

/// If the limiter changes no evicted or removed entry (`ChangesNoPair`), an insert loses no entry. `LosesNothing` says,
/// for each result, where the new entry and the old entries are afterwards (`all`). If the result is true, the map has
/// the stored entry, and the newest entries of other keys. The callback got the oldest entries, oldest first
/// (`stored`). Whatever the result is, every old entry of another key is in the map or was passed to the callback
/// (`others`).
pub fn nothing_is_lost<K: Eq + Hash, V, I: LookupKey<K>, L: Insertion<K, V, I>, S: KeyHasher<K>>() {}

/// If growth is left, an insert changes the entries as it would change a plain list without a table (`list`), whatever
/// `on_grow` returns. If the limiter also accepts a new entry, and is not over its limit with this entry, the insert
/// returns true, evicts nothing (`added`), and passes nothing to its callback (`passed`).
pub fn inserts_with_room_are_exact<K: Eq + Hash, V, I: LookupKey<K>, L: Insertion<K, V, I>, S: KeyHasher<K>>() {}

/// After a successful insert with `ByLength`, the map has the first `max_length` entries of this list: the stored key
/// with the new value, and then the old entries of other keys, newest first. The law holds for a map that keeps to its
/// length (`newest`; see `maps_keep_to_their_length`). It also holds for a map with at most `max_length` entries and
/// growth left (`with_room`). If the map keeps to its length, several inserts, one after another, leave the newest
/// entries, too (`lists`).
pub fn inserts_leave_the_newest<K: Eq + Hash, V, S: KeyHasher<K>>() {}

/// If `max_length` is at most 939,524,096, and an entry has fewer than 4,294,967,295 bytes, a new map with `ByLength`
/// keeps to its length (`KeepsToLength`, `begins`). A map still keeps to its length after any `Step` that leaves a
/// sound table (`goes_on`), and after any write to a value (`written`).
pub fn maps_keep_to_their_length<K: Eq + Hash, V, S: KeyHasher<K>>() {}
