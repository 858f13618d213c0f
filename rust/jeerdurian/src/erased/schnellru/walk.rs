// Erased from crates/schnellru/src/walk.rt: do not edit.
//! Walking the entries of a map in their order of use.

#[allow(unused_imports)]
use crate::rattle_std::prelude::*;

use crate::erased::group_table::LinkType;
use crate::erased::lru_limits::{KeyHasher, Limiter, LookupKey};
use crate::erased::ordered_table::{Keys, Values, Walk};
use crate::erased::schnellru::map::LruMap;
use crate::rattle_std::hash::Hash;

pub(crate) mod drain;
pub(crate) mod into_iter;
pub(crate) mod iter_mut;
mod positions;

/// The iterator that `LruMap::iter` returns.
///
/// Follows schnellru's `Iter`.
pub type Iter<'a, K, V, L> = Walk<'a, K, V, <L as Limiter<K, V>>::LinkType>;

impl<K: Eq + Hash, V, L: Limiter<K, V>, S: KeyHasher<K>> LruMap<K, V, L, S> {
    /// Returns an iterator over the entries, newest first.
    ///
    /// Cost: `O(1)`, and `O(1)` for each step from either end.
    ///
    /// Follows schnellru's `LruMap::iter`.
    pub fn iter(&self) -> Iter<'_, K, V, L> {
        self.entries.iter()
    }

    /// Returns an iterator over the keys, newest first.
    ///
    /// Cost: as `iter`.
    ///
    /// Follows std's `HashMap::keys`.
    pub fn keys(&self) -> Keys<'_, K, V, L::LinkType> {
        self.entries.keys()
    }

    /// Returns an iterator over the values, newest first.
    ///
    /// Cost: as `iter`.
    ///
    /// Follows std's `HashMap::values`.
    pub fn values(&self) -> Values<'_, K, V, L::LinkType> {
        self.entries.values()
    }

    /// Returns the entry at this index in the order of use. The newest entry has index 0.
    ///
    /// Cost: `O(index)`, and `O(1)` if there is no such entry.
    ///
    /// Follows `get_index` of the crate `indexmap`.
    pub fn get_index(&self, index: usize) -> Option<(&K, &V)> {
        Some(self.entries.pair(self.entries.at_index(index)?))
    }

    /// Returns the index of a key in the order of use. The newest key has index 0.
    ///
    /// Cost: `O(1)` expected to find the key, and `O(index)` to count the newer entries.
    ///
    /// Follows `get_index_of` of the crate `indexmap`.
    pub fn get_index_of<Q: LookupKey<K>>(&self, key: &Q) -> Option<usize> {
        let b = self.find(key)?;
        Some(self.entries.index_of(b))
    }

    /// Returns the entry just older than a key's entry, or `None` if the key is not there or its entry is the oldest.
    /// With this call, code can step through a map without an iterator.
    ///
    /// Cost: `O(1)` expected.
    pub fn peek_older<Q: LookupKey<K>>(&self, key: &Q) -> Option<(&K, &V)> {
        let b = self.find(key)?;
        if b == self.entries.oldest() {
            return None;
        }
        Some(self.entries.pair(self.entries.older_unless_last(b)))
    }

    /// Returns the entry just newer than a key's entry, or `None` if the key is not there or its entry is the newest.
    ///
    /// Cost: `O(1)` expected.
    pub fn peek_newer<Q: LookupKey<K>>(&self, key: &Q) -> Option<(&K, &V)> {
        let b = self.find(key)?;
        if b == self.entries.newest() {
            return None;
        }
        Some(self.entries.pair(self.entries.newer_unless_first(b)))
    }
}

/// `for (key, value) in &map` walks the entries, newest first.
impl<'a, K: Eq + Hash, V, N: LinkType + 'a, L: Limiter<K, V, LinkType = N>, S: KeyHasher<K>> IntoIterator
    for &'a LruMap<K, V, L, S>
{
    type Item = (&'a K, &'a V);

    type IntoIter = Walk<'a, K, V, N>;

    fn into_iter(self) -> Walk<'a, K, V, N> {
        self.iter()
    }
}
