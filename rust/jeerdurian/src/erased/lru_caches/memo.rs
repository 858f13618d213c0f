// Erased from crates/lru_caches/src/memo.rt: do not edit.
#[allow(unused_imports)]
use crate::rattle_std::prelude::*;

use crate::erased::schnellru::{Insertion, KeyHasher, LookupKey, LruMap, RandomState, laws};
use crate::rattle_std::alloc::Global;
use crate::rattle_std::hash::Hash;

pub(crate) mod loader;
pub(crate) mod table;

/// A function that remembers its newest results, up to a limit.

pub struct Memo<K: Eq + Hash, V, F, L: Insertion<K, V, K>, S: KeyHasher<K> = RandomState> {
    map: LruMap<K, V, L, S>,
    function: F,
}

impl<K: Eq + Hash, V, F: Fn(&K) -> V, L: Insertion<K, V, K>> Memo<K, V, F, L, RandomState> {
    /// Makes a memo of a function, with no results yet.
    ///
    /// If strangers choose the keys, call `with_hasher`. Cost: `O(1)`, and no memory.
    pub fn new(alloc: Global, limiter: L, function: F) -> Self {
        Memo { map: LruMap::with_limiter(alloc, limiter), function }
    }
}

impl<K: Eq + Hash, V, F: Fn(&K) -> V, L: Insertion<K, V, K>, S: KeyHasher<K>> Memo<K, V, F, L, S> {
    /// Makes a memo of a function, with a hasher of keys.
    ///
    /// Cost: `O(1)`, and no memory.
    pub fn with_hasher(alloc: Global, limiter: L, hasher: S, function: F) -> Self {
        Memo { map: LruMap::with_limiter_and_hasher(alloc, limiter, hasher), function }
    }

    /// Returns how many results are stored.
    ///
    /// Cost: `O(1)`.
    pub fn len(&self) -> usize {
        self.map.len()
    }

    /// Returns whether no result is stored.
    ///
    /// Cost: `O(1)`.
    pub fn is_empty(&self) -> bool {
        self.map.is_empty()
    }

    /// Returns the limiter.
    ///
    /// Cost: `O(1)`.
    pub fn limiter(&self) -> &L {
        self.map.limiter()
    }
}

impl<K: Eq + Hash, V: Copy, F: Fn(&K) -> V, L: Insertion<K, V, K>, S: KeyHasher<K>> Memo<K, V, F, L, S> {
    /// Returns a result of the function for `key`, or for a key that equals `key`. If no result is stored, calls the
    /// function and stores the result.
    ///
    /// Returns the result even if memory runs out or a limit prevents storing it.
    ///
    /// Cost: a get and, if no result is stored, a call of the function and an insert.
    pub fn answer(&mut self, key: K) -> V {
        self.answer_full(key).0
    }

    /// Does what `answer` does, and also returns whether it called the function.
    ///
    /// Cost: as `answer`.
    pub fn answer_full(&mut self, key: K) -> (V, bool) {
        laws::calls_evict_the_oldest::<K, V, K, L, S>();
        if let Some(value) = self.map.get(&key) {
            return (*value, false);
        }
        let value = (self.function)(&key);
        let _kept = self.map.insert(key, value);
        (value, true)
    }
}

impl<K: Eq + Hash, V, F: Fn(&K) -> V, L: Insertion<K, V, K>, S: KeyHasher<K>> Memo<K, V, F, L, S> {
    /// Does what `answer` does, but lends the result to a closure, and returns what the closure returns. The results
    /// need not be `Copy`.
    ///
    /// Cost: as `answer`, plus a call of the closure.
    pub fn answer_with<R, U: FnOnce(&V) -> R>(&mut self, key: K, read: U) -> R {
        laws::calls_evict_the_oldest::<K, V, K, L, S>();
        if let Some(value) = self.map.get(&key) {
            return read(&*value);
        }
        let value = (self.function)(&key);
        let result = read(&value);
        let _ = self.map.insert(key, value);
        result
    }

    /// Returns the stored result of a key, and makes it the newest. Does not call the function.
    ///
    /// Cost: as `LruMap::get`.
    pub fn get<Q: LookupKey<K>>(&mut self, key: &Q) -> Option<V>
    where
        V: Copy,
    {
        self.get_with(key, |value| *value)
    }

    /// Does what `get` does, but lends the result to a closure, and returns what the closure returns.
    ///
    /// Cost: as `get`, plus a call of the closure.
    pub fn get_with<Q: LookupKey<K>, R, U: FnOnce(&V) -> R>(&mut self, key: &Q, read: U) -> Option<R> {
        let value = self.map.get(key)?;
        Some(read(&*value))
    }

    /// Sets another limiter, and drops the oldest results while the memo is over the new limit. Returns the old
    /// limiter. `LruMap::set_limiter` says which running total the new limiter must have.
    ///
    /// Cost: as `LruMap::set_limiter`.
    pub fn set_limiter(&mut self, limiter: L) -> L {
        self.map.set_limiter(limiter)
    }

    /// Removes the stored result of a key, and returns whether there was one.
    ///
    /// Cost: `O(1)` expected.
    pub fn remove<Q: LookupKey<K>>(&mut self, key: &Q) -> bool {
        self.map.remove(key).is_some()
    }

    /// Drops all stored results.
    ///
    /// Cost: as `LruMap::clear`.
    pub fn clear(&mut self) {
        self.map.clear();
    }
}
