// Erased from crates/lru_model/src/laws/bytes.rt: do not edit.
#[allow(unused_imports)]
use crate::rattle_std::prelude::*;

use crate::erased::lru_limits::{Admission, ByBytes, Insertion, KeyHasher, Limiter, OwnedBytes, Summing};
use crate::rattle_std::hash::Hash;

/// A map with `ByBytes` keeps to its limit (`KeepsBytes`) if its limiter counts all bytes of the map, and the count is
/// at most the limit. Then the bytes of the map are at most the limit (`memory`). The map still keeps to its limit
/// after each `Step` (`kept`) and each `try_insert` (`tried`). No `Step` changes the limit (`limit`). The limiter
/// permits a growth only if the new table plus the owned bytes are within the limit (`grown`). This does not count the
/// old table, which exists until all entries have moved.
///
/// A new map keeps to its limit (`begins`). Suppose that `set_limiter` sets a limiter that counts the bytes of the map
/// (`CountsBytes`). If the table alone is within the new limit, the trim brings the map within the new limit
/// (`trimmed`).
pub fn calls_keep_the_bytes<K: OwnedBytes + Eq + Hash, V: OwnedBytes, S: KeyHasher<K>>() {}

/// Any sequence of `Step`s keeps a map within its limit (`kept`), and does not change the limit (`limit`). Values may
/// be written between the steps, if each entry still owns as many bytes as before.
pub fn runs_keep_the_bytes<K: OwnedBytes + Eq + Hash, V: OwnedBytes, S: KeyHasher<K>>() {}
