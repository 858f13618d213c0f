// Erased from crates/lru_caches/src/memo/loader.rt: do not edit.
#[allow(unused_imports)]
use crate::rattle_std::prelude::*;

use crate::erased::schnellru::{Insertion, KeyHasher, LookupKey, LruMap, RandomState, laws};
use crate::rattle_std::alloc::Global;
use crate::rattle_std::hash::Hash;

/// A memo of a function that may fail, such as a read of a file. Errors are not stored.

pub struct Loader<K: Eq + Hash, V, F, L: Insertion<K, V, K>, S: KeyHasher<K> = RandomState> {
    map: LruMap<K, V, L, S>,
    function: F,
}

impl<K: Eq + Hash, V, E, F: Fn(&K) -> Result<V, E>, L: Insertion<K, V, K>> Loader<K, V, F, L, RandomState> {
    /// Makes an empty loader for a function.
    ///
    /// If strangers choose the keys, call `with_hasher`. Cost: `O(1)`, and no memory.
    pub fn new(alloc: Global, limiter: L, function: F) -> Self {
        Loader { map: LruMap::with_limiter(alloc, limiter), function }
    }
}

impl<K: Eq + Hash, V, E, F: Fn(&K) -> Result<V, E>, L: Insertion<K, V, K>, S: KeyHasher<K>> Loader<K, V, F, L, S> {
    /// Makes an empty loader for a function, with a hasher of keys.
    ///
    /// Cost: `O(1)`, and no memory.
    pub fn with_hasher(alloc: Global, limiter: L, hasher: S, function: F) -> Self {
        Loader { map: LruMap::with_limiter_and_hasher(alloc, limiter, hasher), function }
    }

    /// Returns how many values are stored.
    ///
    /// Cost: `O(1)`.
    pub fn len(&self) -> usize {
        self.map.len()
    }

    /// Returns whether no value is stored.
    ///
    /// Cost: `O(1)`.
    pub fn is_empty(&self) -> bool {
        self.map.is_empty()
    }
}

impl<K: Eq + Hash, V: Copy, E, F: Fn(&K) -> Result<V, E>, L: Insertion<K, V, K>, S: KeyHasher<K>>
    Loader<K, V, F, L, S>
{
    /// Returns the value of a key. If no value is stored, calls the function, and stores its value.
    ///
    /// Returns the value even if memory runs out or a limit prevents storing it.
    ///
    /// Cost: a get and, if no value is stored, a call of the function and an insert.
    ///
    /// # Errors
    ///
    /// The function failed, with this error. Nothing has changed.
    pub fn load(&mut self, key: K) -> Result<V, E> {
        self.load_with(key, |value| *value)
    }
}

impl<K: Eq + Hash, V, E, F: Fn(&K) -> Result<V, E>, L: Insertion<K, V, K>, S: KeyHasher<K>> Loader<K, V, F, L, S> {
    /// Does what `load` does, but lends the value to a closure, and returns what the closure returns.
    ///
    /// Cost: as `load`, plus a call of the closure.
    ///
    /// # Errors
    ///
    /// As `load`. After an error, the closure is not called.
    pub fn load_with<R, U: FnOnce(&V) -> R>(&mut self, key: K, read: U) -> Result<R, E> {
        laws::calls_evict_the_oldest::<K, V, K, L, S>();
        if let Some(value) = self.map.get(&key) {
            return Ok(read(&*value));
        }
        match (self.function)(&key) {
            Ok(value) => {
                let given = read(&value);
                let _ = self.map.insert(key, value);
                Ok(given)
            }
            Err(error) => Err(error),
        }
    }

    /// Removes the stored value of a key, and returns whether there was one.
    ///
    /// Cost: `O(1)` expected.
    pub fn remove<Q: LookupKey<K>>(&mut self, key: &Q) -> bool {
        self.map.remove(key).is_some()
    }

    /// Drops all stored values.
    ///
    /// Cost: as `LruMap::clear`.
    pub fn clear(&mut self) {
        self.map.clear();
    }
}
