// Erased from crates/schnellru/src/map/remove.rt: do not edit.
//! Removals, pops, a clear and evictions. Each of these calls notifies the limiter.

#[allow(unused_imports)]
use crate::rattle_std::prelude::*;

use crate::erased::lru_limits::{KeyHasher, Limiter, LookupKey};
use crate::erased::ordered_table::OrderedTable;
use crate::erased::schnellru::map::LruMap;
use crate::rattle_std::hash::Hash;

impl<K: Eq + Hash, V, L: Limiter<K, V>, S: KeyHasher<K>> LruMap<K, V, L, S> {
    /// Removes and returns the oldest entry, if there is one.
    ///
    /// Cost: `O(1)`.
    ///
    /// Follows schnellru's `LruMap::pop_oldest`.
    #[inline]
    pub fn pop_oldest(&mut self) -> Option<(K, V)> {
        if self.is_empty() {
            self.show_map();
            return None;
        }
        Some(self.take_oldest())
    }

    /// Removes and returns the newest entry, if there is one.
    ///
    /// Cost: `O(1)`.
    ///
    /// Follows schnellru's `LruMap::pop_newest`.
    pub fn pop_newest(&mut self) -> Option<(K, V)> {
        if self.is_empty() {
            return None;
        }
        let b = self.entries.newest();
        Some(take_out(&mut self.entries, &mut self.limiter, b))
    }

    /// Removes a key. Returns the stored key and its value.
    ///
    /// Cost: `O(1)` expected.
    ///
    /// Follows std's `HashMap::remove_entry`.
    #[inline]
    pub fn remove_entry<Q: LookupKey<K>>(&mut self, key: &Q) -> Option<(K, V)> {
        let b = self.find(key)?;
        Some(self.take_at(b))
    }
}

impl<K: Eq + Hash, V, L: Limiter<K, V>, S: KeyHasher<K>> LruMap<K, V, L, S> {
    /// Removes a key. Returns its value. The other entries keep their order.
    ///
    /// Cost: `O(1)` expected.
    ///
    /// Follows schnellru's `LruMap::remove`.
    #[inline]
    pub fn remove<Q: LookupKey<K>>(&mut self, key: &Q) -> Option<V> {
        let (_, value) = self.remove_entry(key)?;
        Some(value)
    }
}

impl<K: Eq + Hash, V, L: Limiter<K, V>, S: KeyHasher<K>> LruMap<K, V, L, S> {
    /// Drops all entries. Notifies the limiter of the clear, even if the map is empty, but not of each entry. The table
    /// keeps its buckets.
    ///
    /// Cost: `O(buckets)`, even if there are few entries; `O(1)` if every bucket is empty.
    ///
    /// Follows schnellru's `LruMap::clear`.
    pub fn clear(&mut self) {
        if_unwound(self, Self::abandon, |map| map.entries.clear());
        self.limiter.on_cleared();
    }
    // Leaks the entries and the table, and notifies the limiter that both are gone.
    pub(super) fn abandon(&mut self) {
        leak(&mut self.entries, OrderedTable::new(self.alloc));
        self.limiter.on_cleared();
        self.limiter.on_grow(0);
    }
}

impl<K: Eq + Hash, V, L: Limiter<K, V>, S: KeyHasher<K>> LruMap<K, V, L, S> {
    #[inline(always)]
    pub(super) fn take_oldest(&mut self) -> (K, V) {
        take_out_oldest(&mut self.entries, &mut self.limiter)
    }

    #[inline]
    pub(super) fn make_room<F: FnMut(K, V)>(&mut self, sink: &mut F) {
        if !self.is_empty() && self.limiter.is_over_the_limit(self.entries.len() + 1) {
            let (key, value) = self.take_oldest();
            sink(key, value);
        }
    }

    #[inline]
    pub(super) fn evict_over_limit<F: FnMut(K, V)>(&mut self, sink: &mut F) -> bool {
        if self.is_over_the_limit() { self.evict_while_over(sink) } else { true }
    }

    // Out of line, so that an insert's code does not contain the evictions.
    #[inline(never)]
    fn evict_while_over<F: FnMut(K, V)>(&mut self, sink: &mut F) -> bool {
        'evictions: loop {
            let (key, value) = self.take_oldest();
            sink(key, value);
            if self.is_empty() {
                return false;
            }
            if !self.is_over_the_limit() {
                return true;
            }
        }
    }
}

#[inline]
pub(super) fn take_out<K: Eq + Hash, V, L: Limiter<K, V>>(
    entries: &mut OrderedTable<K, V, L::LinkType>,
    limiter: &mut L,
    b: usize,
) -> (K, V) {
    notify(limiter, entries.take(b))
}

#[inline(always)]
fn take_out_oldest<K: Eq + Hash, V, L: Limiter<K, V>>(
    entries: &mut OrderedTable<K, V, L::LinkType>,
    limiter: &mut L,
) -> (K, V) {
    notify(limiter, entries.take_oldest())
}

#[inline]
pub(super) fn notify<K, V, L: Limiter<K, V>>(limiter: &mut L, pair: (K, V)) -> (K, V) {
    let (mut key, mut value) = pair;
    limiter.on_removed(&mut key, &mut value);
    (key, value)
}

// The callback of calls that have no parameter for a callback. Drops the key, and then the value. Parameters without a
// name would be dropped in the opposite order.
pub(crate) fn discard<K, V>(key: K, value: V) {
    drop(key);
    drop(value);
}
