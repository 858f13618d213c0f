// Erased from crates/schnellru/src/map/look_up.rt: do not edit.
#[allow(unused_imports)]
use crate::rattle_std::prelude::*;

use crate::erased::lru_limits::{KeyHasher, Limiter, LookupKey};
use crate::erased::schnellru::map::LruMap;
use crate::rattle_std::hash::Hash;

impl<K: Eq + Hash, V, L: Limiter<K, V>, S: KeyHasher<K>> LruMap<K, V, L, S> {
    /// Lends the value of a key for writing, and makes its entry the newest.
    ///
    /// A `&str` looks up a `String` key: `map.get(&"a")`.
    ///
    /// Cost: `O(1)` expected.
    ///
    /// Follows schnellru's `LruMap::get`.
    #[inline(always)]
    pub fn get<Q: LookupKey<K>>(&mut self, key: &Q) -> Option<&mut V> {
        let b = self.find(key)?;
        self.promote_at(b);
        Some(self.value_in_mut(b))
    }

    /// Returns the entry of a key, and makes this entry the newest.
    ///
    /// The returned key is the stored key.
    ///
    /// Cost: `O(1)` expected.
    ///
    /// Follows `get_key_value` of the crate `lru`.
    #[inline]
    pub fn get_key_value<Q: LookupKey<K>>(&mut self, key: &Q) -> Option<(&K, &V)> {
        let b = self.find(key)?;
        self.promote_at(b);
        Some(self.pair_in(b))
    }

    /// Makes the entry of a key the newest, and returns whether the key is there.
    ///
    /// Cost: `O(1)` expected.
    ///
    /// Follows `promote` of the crate `lru`.
    #[inline]
    pub fn promote<Q: LookupKey<K>>(&mut self, key: &Q) -> bool {
        match self.find(key) {
            Some(b) => {
                self.promote_at(b);
                true
            }
            None => false,
        }
    }

    /// Makes the entry of a key the oldest, and returns whether the key is there.
    ///
    /// Cost: `O(1)` expected.
    ///
    /// Follows `demote` of the crate `lru`.
    pub fn demote<Q: LookupKey<K>>(&mut self, key: &Q) -> bool {
        match self.find(key) {
            Some(b) => {
                self.demote_at(b);
                true
            }
            None => false,
        }
    }

    /// Lends the value of the newest entry for writing.
    ///
    /// Right after `ensure_newest(key, ..)` returned true, this is the value of `key`. Cost: `O(1)`.
    #[inline]
    pub fn newest_mut(&mut self) -> Option<&mut V> {
        if self.is_empty() {
            self.show_map();
            return None;
        }
        Some(self.newest_value_mut())
    }

    #[inline]
    pub(crate) fn newest_value_mut(&mut self) -> &mut V {
        let b = self.entries.newest();
        self.entries.pair_mut(b).1
    }

    /// Returns whether a key is in the map.
    ///
    /// Cost: `O(1)` expected.
    ///
    /// Follows `contains` of the crate `lru`.
    #[inline]
    pub fn contains<Q: LookupKey<K>>(&self, key: &Q) -> bool {
        self.find(key).is_some()
    }

    /// Returns the value of a key. The order stays.
    ///
    /// Cost: `O(1)` expected.
    ///
    /// Follows schnellru's `LruMap::peek`.
    #[inline]
    pub fn peek<Q: LookupKey<K>>(&self, key: &Q) -> Option<&V> {
        let b = self.find(key)?;
        Some(self.pair_in(b).1)
    }

    /// Returns the entry of a key.
    ///
    /// Cost: `O(1)` expected.
    ///
    /// Follows std's `HashMap::get_key_value`.
    #[inline]
    pub fn peek_key_value<Q: LookupKey<K>>(&self, key: &Q) -> Option<(&K, &V)> {
        let b = self.find(key)?;
        Some(self.pair_in(b))
    }

    /// Lends the value of a key for writing. The order stays.
    ///
    /// Cost: `O(1)` expected.
    ///
    /// Follows schnellru's `LruMap::peek_mut`.
    #[inline]
    pub fn peek_mut<Q: LookupKey<K>>(&mut self, key: &Q) -> Option<&mut V> {
        let b = self.find(key)?;
        Some(self.value_in_mut(b))
    }

    /// Returns the oldest entry.
    ///
    /// Cost: `O(1)`.
    ///
    /// Follows schnellru's `LruMap::peek_oldest`.
    pub fn peek_oldest(&self) -> Option<(&K, &V)> {
        if self.is_empty() {
            return None;
        }
        Some(self.entries.pair(self.entries.oldest()))
    }

    /// Returns the newest entry.
    ///
    /// Cost: `O(1)`.
    ///
    /// Follows schnellru's `LruMap::peek_newest`.
    pub fn peek_newest(&self) -> Option<(&K, &V)> {
        if self.is_empty() {
            return None;
        }
        Some(self.entries.pair(self.entries.newest()))
    }
}
