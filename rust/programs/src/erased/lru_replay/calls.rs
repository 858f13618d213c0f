// Erased from crates/lru_replay/src/calls.rt: do not edit.
//! Calls, and their answers.

#[allow(unused_imports)]
use crate::rattle_std::prelude::*;

pub(crate) mod pairs;
pub(crate) mod steps;
pub(crate) mod summing;

use crate::erased::lru_model::{MoveReport, ReserveError, Updated};
use crate::erased::schnellru::{Insertion, KeyHasher, LruMap};
use crate::programs::lru_replay::calls::pairs::{drain_pairs, insert_with, list};
use crate::programs::lru_replay::calls::steps::{
    get, get_by_hash, get_or_insert, insert, peek_by_hash, peek_newest, peek_oldest, stats, write,
};
use crate::rattle_std::alloc::{AllocError, Global};
use crate::rattle_std::hash::Hash;

/// A call that [`run_calls`] carries out. Most calls do what the map's call of the same name does; `docs/RUNS.md` lists
/// the others.
#[derive(Debug)]
pub enum Call<K, V, L> {
    Insert(K, V),
    /// Inserts by `insert_and_keep`.
    InsertWith(K, V),
    /// `get_or_insert`, with a closure that returns this value.
    GetOrInsert(K, V),
    Update(K, V),
    Get(K),
    Peek(K),
    Contains(K),
    Promote(K),
    Demote(K),
    /// `get_by_hash`, with a closure that accepts only this key.
    GetByHash(u64, K),
    /// `peek_by_hash`, with a closure that accepts only this key.
    PeekByHash(u64, K),
    /// Writes the value, by `peek_mut`.
    Write(K, V),
    Remove(K),
    RemoveEntry(K),
    PopOldest,
    PopNewest,
    PeekOldest,
    PeekNewest,
    Reserve(usize),
    Shrink,
    Trim,
    Clear,
    /// `drain`: returns `front` pairs from the newest end, then `back` pairs from the oldest, and drops the others.
    Drain {
        front: usize,
        back: usize,
    },
    List,
    Stats,
    /// Writes another limiter through `limiter_mut`, and evicts nothing.
    SetLimiter(L),
}

/// The answer to a [`Call`].
#[derive(Debug, PartialEq)]
pub enum Answer<K, V> {
    /// For `Insert`, `Write`, `Contains`, `Promote` and `Demote`: whether the key is in the map now.
    Flag(bool),
    /// For `InsertWith`: what `insert_and_keep` returned.
    Given {
        /// Whether the key is in the map now. `Err` means out of memory.
        done: Result<bool, AllocError>,
        /// The pairs that `insert_and_keep` returned, in order.
        out: Vec<(K, V)>,
    },
    /// For `Update`.
    Updated(Updated<V>),
    /// For `GetOrInsert`, `Get`, `Peek`, `Remove` and the searches by a hash: the value, if there is one.
    Value(Option<V>),
    /// For the pops, the peeks at an end and `RemoveEntry`: the pair, if there is one.
    Pair(Option<(K, V)>),
    /// For `List` and `Drain`: the pairs.
    Pairs(Vec<(K, V)>),
    Done,
    /// For `Reserve`: `Ok` if enough growth is left, else the reason why not.
    Reserved(Result<(), ReserveError>),
    /// For `Shrink`: whether the table has fewer buckets now. `Err` means out of memory, and nothing has changed.
    Shrunk(Result<bool, AllocError>),
    /// For `Stats`: the figures of the map.
    Stats {
        len: usize,
        capacity: usize,
        memory: usize,
        report: MoveReport,
    },
    /// For `Insert` and `GetOrInsert`: out of memory. For `InsertWith`, `List` and `Drain`: out of memory for the
    /// returned pairs, and nothing has changed.
    Memory,
    /// For `Write` and `SetLimiter` in `run_summing`: the call was not made, because the running total would be wrong.
    CostDiffers,
}

/// Carries out the calls on the map, one after another, and returns their answers.
///
/// Cost: the cost of the calls, and one request for memory for the answers. `InsertWith`, `List` and `Drain` each make
/// one more request.
///
/// # Errors
///
/// Out of memory for the answers. No call was made.
pub fn run_calls<K: Copy + Eq + Hash, V: Copy, L: Insertion<K, V, K>, S: KeyHasher<K>>(
    alloc: Global,
    map: &mut LruMap<K, V, L, S>,
    calls: Vec<Call<K, V, L>>,
) -> Result<Vec<Answer<K, V>>, AllocError> {
    let mut answers = Vec::with_capacity(alloc, calls.len())?;
    for call in calls {
        answers.push_reserved(make_call(alloc, map, call));
    }
    Ok(answers)
}

pub(crate) fn make_call<K, V, L, S>(alloc: Global, map: &mut LruMap<K, V, L, S>, call: Call<K, V, L>) -> Answer<K, V>
where
    K: Copy + Eq + Hash,
    V: Copy,
    L: Insertion<K, V, K>,
    S: KeyHasher<K>,
{
    let answer = answer_to(alloc, map, call);
    let _len = map.len();
    answer
}

fn answer_to<K, V, L, S>(alloc: Global, map: &mut LruMap<K, V, L, S>, call: Call<K, V, L>) -> Answer<K, V>
where
    K: Copy + Eq + Hash,
    V: Copy,
    L: Insertion<K, V, K>,
    S: KeyHasher<K>,
{
    match call {
        Call::Insert(key, value) => insert(map, key, value),
        Call::InsertWith(key, value) => insert_with(map, key, value),
        Call::GetOrInsert(key, value) => get_or_insert(map, key, value),
        Call::Update(key, value) => Answer::Updated(map.update(key, value)),
        Call::Get(key) => Answer::Value(get(map, &key)),
        Call::Peek(key) => Answer::Value(map.peek(&key).copied()),
        Call::Contains(key) => Answer::Flag(map.contains(&key)),
        Call::Promote(key) => Answer::Flag(map.promote(&key)),
        Call::Demote(key) => Answer::Flag(map.demote(&key)),
        Call::GetByHash(hash, key) => Answer::Value(get_by_hash(map, hash, &key)),
        Call::PeekByHash(hash, key) => Answer::Value(peek_by_hash(map, hash, &key)),
        Call::Write(key, value) => Answer::Flag(write(map, &key, value)),
        Call::Remove(key) => Answer::Value(map.remove(&key)),
        Call::RemoveEntry(key) => Answer::Pair(map.remove_entry(&key)),
        Call::PopOldest => Answer::Pair(map.pop_oldest()),
        Call::PopNewest => Answer::Pair(map.pop_newest()),
        Call::PeekOldest => Answer::Pair(peek_oldest(map)),
        Call::PeekNewest => Answer::Pair(peek_newest(map)),
        Call::Reserve(n) => Answer::Reserved(map.try_reserve(n)),
        Call::Shrink => Answer::Shrunk(map.shrink_to_fit()),
        Call::Trim => {
            map.trim();
            Answer::Done
        }
        Call::Clear => {
            map.clear();
            Answer::Done
        }
        Call::Drain { front, back } => drain_pairs(alloc, map, front, back),
        Call::List => list(alloc, map),
        Call::Stats => stats(map),
        Call::SetLimiter(limiter) => {
            *map.limiter_mut() = limiter;
            Answer::Done
        }
    }
}
