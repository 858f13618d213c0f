// Erased from crates/lru_model/src/results.rt: do not edit.
//! The types that the calls of a map return.

#[allow(unused_imports)]
use crate::rattle_std::prelude::*;

use crate::rattle_std::fmt::Display;

/// What an insert into a map did, with the value that the map does not keep.
///
/// - If the key was new, `unkept` is `None`. `kept` is false if the limiter rejected the new entry, if the map could
///   not store it, or if the map stored and then evicted it.
///
/// - If the limiter accepted a new value for a key of the map, `unkept` is the old value. `kept` is false if the entry
///   was then evicted, because the limiter was still over its limit.
///
/// - If the limiter rejected a new value for a key of the map, the entry was removed. `unkept` is the new value, and
///   `kept` is false.
///
/// If `kept` is false and `unkept` is `Some`, the callback got the entry of the key.
#[derive(Clone, Copy, Debug, PartialEq, Eq)]
pub struct Inserted<V> {
    /// Whether the key is in the map after the insert.
    pub kept: bool,
    /// The value that the map does not keep, or `None` if the key was new.
    pub unkept: Option<V>,
}

/// What an update did. Each variant contains a value that is not in the map afterwards.
#[derive(Clone, Copy, Debug, PartialEq, Eq)]
pub enum Updated<V> {
    /// The old value, because the limiter accepted the new value. The entry may have been evicted afterwards, if the
    /// limiter was over its limit.
    Replaced(V),
    /// The new value, because the limiter rejected it. The entry was removed.
    Rejected(V),
    /// The new value, because the key is not in the map.
    Absent(V),
}

/// Why `try_reserve` fails.
#[derive(Clone, Copy, Debug, PartialEq, Eq)]
pub enum ReserveError {
    /// No table can hold the old entries and the reserved entries together, or the sum of their numbers overflows.
    TooLarge = 1,
    /// The limiter refused the larger table.
    Refused = 2,
    /// Out of memory.
    Memory = 3,
}

impl ::core::fmt::Display for ReserveError {
    fn fmt(&self, f: &mut ::core::fmt::Formatter<'_>) -> ::core::fmt::Result {
        match self {
            ReserveError::TooLarge => write!(f, "too large"),
            ReserveError::Refused => write!(f, "the limiter refused the larger table"),
            ReserveError::Memory => write!(f, "out of memory"),
        }
    }
}

/// Why `ensure_newest_fallible` or `get_or_insert_fallible` fails.
#[derive(Debug, PartialEq, Eq)]

pub enum GetOrInsertError<E> {
    /// Out of memory.
    Memory,
    /// The closure failed.
    Caller(E),
}

impl<E> ::core::fmt::Display for GetOrInsertError<E>
where
    E: Display,
{
    fn fmt(&self, f: &mut ::core::fmt::Formatter<'_>) -> ::core::fmt::Result {
        match self {
            GetOrInsertError::Memory => write!(f, "out of memory"),
            GetOrInsertError::Caller(value) => write!(f, "the closure failed: {0}", value),
        }
    }
}

/// The numbers of entries that inserts moved, that inserts stored, and that shrinks rehashed.
#[derive(Clone, Copy, Debug, PartialEq, Eq)]
pub struct MoveReport {
    /// Entries that inserts moved, because the table grew or was rehashed. Moves by `try_reserve` and `try_insert` are
    /// not counted.
    pub moved: u64,
    /// New entries that inserts stored, including `try_insert`.
    pub placed: u64,
    /// Entries that `shrink_to_fit` rehashed.
    pub shrunk: u64,
}
