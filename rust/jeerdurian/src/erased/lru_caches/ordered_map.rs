// Erased from crates/lru_caches/src/ordered_map.rt: do not edit.
//! `OrderedMap`. Contracts represent a map by the list of its entries, oldest first.

#[allow(unused_imports)]
use crate::rattle_std::prelude::*;

use crate::erased::lru_caches::ordered_map::entries::Entries;
use crate::erased::lru_caches::ordered_map::keys::{Keys, Values};
use crate::erased::schnellru::{KeyHasher, LookupKey, LruMap, RandomState, Unlimited};
use crate::rattle_std::alloc::{AllocError, Global};
use crate::rattle_std::hash::Hash;
use crate::rattle_std::mem;

mod compared;
pub(crate) mod entries;
pub(crate) mod into_entries;
pub(crate) mod keys;
mod more;

/// A hash map whose entries are in the order of insertion, oldest first.
///
/// The map evicts nothing.
///
/// Each call follows the call with the same name in indexmap's `IndexMap`, unless its comment names another call. In
/// the examples, `map` contains (1, 11) and then (2, 20).

pub struct OrderedMap<K, V, S = RandomState> {
    pub(crate) map: LruMap<K, V, Unlimited, S>,
}

impl<K: Eq + Hash, V> OrderedMap<K, V, RandomState> {
    /// Makes an empty map with the default hasher.
    ///
    /// Cost: `O(1)`, and no memory.
    pub fn new(alloc: Global) -> Self {
        OrderedMap::with_hasher(alloc, RandomState::default())
    }
}

impl<K: Eq + Hash, V, S: KeyHasher<K>> OrderedMap<K, V, S> {
    /// Makes an empty map with this hasher. Cost: `O(1)`, and no memory.
    pub fn with_hasher(alloc: Global, hasher: S) -> Self {
        OrderedMap { map: LruMap::with_limiter_and_hasher(alloc, Unlimited, hasher) }
    }
    pub(crate) fn try_clone(&self) -> Result<Self, AllocError>
    where
        K: TryClone,
        V: TryClone,
        S: TryClone,
    {
        Ok(OrderedMap { map: self.map.try_clone()? })
    }

    /// Returns the number of entries. Cost: `O(1)`.
    pub fn len(&self) -> usize {
        self.map.len()
    }

    /// Returns whether there are no entries. Cost: `O(1)`.
    pub fn is_empty(&self) -> bool {
        self.map.is_empty()
    }

    /// Returns whether a key is in the map.
    ///
    /// Cost: `O(1)` expected.
    pub fn contains_key<Q: LookupKey<K>>(&self, key: &Q) -> bool {
        distinct(&self.map);
        self.map.contains(key)
    }

    /// Returns the value of a key.
    ///
    /// Cost: `O(1)` expected.
    pub fn get<Q: LookupKey<K>>(&self, key: &Q) -> Option<&V> {
        distinct(&self.map);
        self.map.peek(key)
    }

    /// Lends the value of a key for writing. Does not change the order.
    ///
    /// Cost: `O(1)` expected.
    pub fn get_mut<Q: LookupKey<K>>(&mut self, key: &Q) -> Option<&mut V> {
        distinct(&self.map);
        self.map.peek_mut(key)
    }

    /// Returns the oldest entry.
    ///
    /// Cost: `O(1)`.
    pub fn first(&self) -> Option<(&K, &V)> {
        self.map.peek_oldest()
    }

    /// Returns the newest entry.
    ///
    /// Cost: `O(1)`.
    pub fn last(&self) -> Option<(&K, &V)> {
        self.map.peek_newest()
    }

    /// Removes and returns the oldest entry.
    ///
    /// Cost: `O(1)`.
    ///
    /// Follows std's `BTreeMap::pop_first`.
    pub fn pop_first(&mut self) -> Option<(K, V)> {
        self.map.pop_oldest()
    }

    /// Removes and returns the newest entry.
    ///
    /// Cost: `O(1)`.
    ///
    /// Follows std's `BTreeMap::pop_last`.
    pub fn pop_last(&mut self) -> Option<(K, V)> {
        self.map.pop_newest()
    }

    /// Removes a key, and returns the stored key and its value. The other entries keep their order.
    ///
    /// Cost: `O(1)` expected.
    ///
    /// Follows std's `HashMap::remove_entry`.
    pub fn remove_entry<Q: LookupKey<K>>(&mut self, key: &Q) -> Option<(K, V)> {
        distinct(&self.map);
        self.map.remove_entry(key)
    }

    /// Returns an iterator over the keys, oldest first.
    ///
    /// Cost: `O(1)`, and `O(1)` for each step from either end.
    pub fn keys(&self) -> Keys<'_, K, V> {
        Keys::new(self.iter())
    }

    /// Returns an iterator over the values, oldest first.
    ///
    /// Cost: `O(1)`, and `O(1)` for each step from either end.
    pub fn values(&self) -> Values<'_, K, V> {
        Values::new(self.iter())
    }

    /// Returns an iterator over the entries, oldest first.
    ///
    /// Cost: `O(1)`, and `O(1)` for each step from either end.
    pub fn iter(&self) -> Entries<'_, K, V> {
        Entries::new(self.map.iter())
    }
}

impl<K: Eq + Hash, V, S: KeyHasher<K>> OrderedMap<K, V, S> {
    /// Removes a key, and returns its value. The other entries keep their order.
    ///
    /// Cost: `O(1)` expected.
    ///
    /// Follows indexmap's `IndexMap::shift_remove`, which takes `O(len)`.
    pub fn remove<Q: LookupKey<K>>(&mut self, key: &Q) -> Option<V> {
        distinct(&self.map);
        self.map.remove(key)
    }
}

impl<K: Eq + Hash, V, S: KeyHasher<K>> OrderedMap<K, V, S> {
    /// Inserts a key with a value as the newest entry. If the key is in the map, replaces and returns the old value,
    /// and the entry keeps its key and its place.
    ///
    /// Cost: `O(1)` expected, amortised over the inserts.
    ///
    /// # Errors
    ///
    /// The key is new and cannot be stored: memory ran out, or there is no larger table. Nothing has changed.
    pub fn insert(&mut self, key: K, value: V) -> Result<Option<V>, AllocError> {
        distinct(&self.map);
        let Err((key, value)) = self.map.try_insert(key, value) else {
            return Ok(None);
        };
        if let Some(place) = self.map.peek_mut(&key) {
            return Ok(Some(mem::replace(place, value)));
        }
        Err(AllocError)
    }

    /// Removes the entries for which the closure returns false.
    ///
    /// The closure is called with each entry, oldest first.
    ///
    /// Cost: `O(len)`.
    ///
    /// Follows std's `HashMap::retain`, whose closure may write the value.
    pub fn retain<F: FnMut(&K, &V) -> bool>(&mut self, keep: F) {
        self.map.retain(keep);
    }

    /// Drops all entries. The table keeps its memory. Cost: as `LruMap::clear`.
    pub fn clear(&mut self) {
        self.map.clear();
    }
}

#[inline]
fn distinct<K: Eq + Hash, V, S: KeyHasher<K>>(map: &LruMap<K, V, Unlimited, S>) {
    let _ = map.len();
}
