// Erased from crates/lru_caches/src/memo/table.rt: do not edit.
//! `MemoTable`. Contracts represent a table by its keys with their answers, newest first.

#[allow(unused_imports)]
use crate::rattle_std::prelude::*;

use crate::erased::schnellru::{Insertion, KeyHasher, LruMap, RandomState, laws};
use crate::rattle_std::alloc::Global;
use crate::rattle_std::hash::Hash;

/// Defines which values are answers for a key of a [`MemoTable`].
pub trait Question<K, V> {}

/// A table of the newest answers to a question, up to a limit. A function that calls itself can store its results here.
///
/// `get` returns only answers, because each caller of `store` must prove that the value is an answer.

pub struct MemoTable<K: Eq + Hash, V, Q: Question<K, V>, L: Insertion<K, V, K>, S: KeyHasher<K> = RandomState> {
    map: LruMap<K, V, L, S>,
    question: Q,
}

impl<K: Eq + Hash, V, Q: Question<K, V>, L: Insertion<K, V, K>> MemoTable<K, V, Q, L, RandomState> {
    /// Makes an empty table.
    ///
    /// If strangers choose the keys, call `with_hasher`. Cost: `O(1)`, and no memory.
    pub fn new(alloc: Global, limiter: L, question: Q) -> Self {
        MemoTable { map: LruMap::with_limiter(alloc, limiter), question }
    }
}

impl<K: Eq + Hash, V, Q: Question<K, V>, L: Insertion<K, V, K>, S: KeyHasher<K>> MemoTable<K, V, Q, L, S> {
    /// Makes an empty table, with a hasher of keys.
    ///
    /// Cost: `O(1)`, and no memory.
    pub fn with_hasher(alloc: Global, limiter: L, hasher: S, question: Q) -> Self {
        MemoTable { map: LruMap::with_limiter_and_hasher(alloc, limiter, hasher), question }
    }

    /// Returns how many answers are stored.
    ///
    /// Cost: `O(1)`.
    pub fn len(&self) -> usize {
        self.map.len()
    }

    /// Returns whether no answer is stored.
    ///
    /// Cost: `O(1)`.
    pub fn is_empty(&self) -> bool {
        self.map.is_empty()
    }
}

impl<K: Eq + Hash, V, Q: Question<K, V>, L: Insertion<K, V, K>, S: KeyHasher<K>> MemoTable<K, V, Q, L, S> {
    /// Returns the stored answer for `key`, or for a key that equals `key`, and makes this answer the newest.
    ///
    /// Cost: `O(1)` expected.
    pub fn get(&mut self, key: &K) -> Option<V>
    where
        V: Copy,
    {
        self.get_with(key, |value| *value)
    }

    /// Does what `get` does, but lends the answer to a closure, and returns the closure's result.
    ///
    /// Cost: as `get`, plus a call of the closure.
    pub fn get_with<R, U: FnOnce(&V) -> R>(&mut self, key: &K, read: U) -> Option<R> {
        let value = self.map.get(key)?;
        Some(read(&*value))
    }

    /// Stores an answer for a key as the newest, and returns true. Returns false if memory runs out or a limit prevents
    /// storing the answer. In this case, the table has no answer for the key.
    ///
    /// Cost: an insert.
    pub fn store(&mut self, key: K, value: V) -> bool {
        laws::calls_evict_the_oldest::<K, V, K, L, S>();
        self.map.insert(key, value).unwrap_or(false)
    }
}
