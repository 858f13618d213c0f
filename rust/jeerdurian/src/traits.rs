//! Impls of std's traits that `schnellru`'s `LruMap` lacks.

use crate::limiter::Limiter;
use crate::map::LruMap;
use core::hash::{BuildHasher, Hash};

impl<K, V, L, S> PartialEq for LruMap<K, V, L, S>
where
    K: Hash + PartialEq,
    V: PartialEq,
    L: Limiter<K, V>,
    S: BuildHasher,
{
    /// Returns whether both maps have equal entries in the same order. Their limiters and hashers may differ. Proved:
    /// the answer is exact.
    ///
    /// ```
    /// use jeerdurian::{LruMap, More, Unlimited};
    ///
    /// let mut map: LruMap<u64, u64, Unlimited> = [(1, 10), (2, 20)].into_iter().collect();
    /// let copy = map.clone();
    /// assert!(map == copy);
    /// map.promote(&1);
    /// assert!(map != copy);
    /// ```
    fn eq(&self, other: &Self) -> bool {
        self.map == other.map
    }
}

impl<K, V, L, S> Eq for LruMap<K, V, L, S>
where
    K: Hash + Eq,
    V: Eq,
    L: Limiter<K, V>,
    S: BuildHasher,
{
}

/// Returns for how many of an iterator's entries a map reserves growth: for all that are promised if the map is empty,
/// otherwise for half of them, because some keys may be there. Std's `HashMap` does the same.
pub(crate) fn promised(entries: &impl Iterator, is_empty: bool) -> usize {
    let least = entries.size_hint().0;
    if is_empty { least } else { least.div_ceil(2) }
}

impl<K, V, L, S> Extend<(K, V)> for LruMap<K, V, L, S>
where
    K: Hash + PartialEq,
    L: for<'a> Limiter<K, V, KeyToInsert<'a> = K>,
    S: BuildHasher,
{
    /// Inserts each entry as [`insert`](LruMap::insert) does. Drops the entries that the limiter rejects or that memory
    /// cannot hold.
    ///
    /// Under `Unlimited`, `UnlimitedCompact` and `ByLength`, first reserves growth for the entries that the iterator
    /// promises (`size_hint`), or for half of them if the map has entries, but for no entries above the limit. If the
    /// reservation fails, the table grows with the inserts.
    ///
    /// ```
    /// use jeerdurian::{ByLength, LruMap};
    ///
    /// let mut map = LruMap::new(ByLength::new(2));
    /// map.extend([(1, 10), (2, 20), (3, 30)]);
    /// assert!(map.iter().eq([(&3, &30), (&2, &20)]));
    /// ```
    fn extend<I: IntoIterator<Item = (K, V)>>(&mut self, entries: I) {
        let entries = entries.into_iter();
        let n = promised(&entries, self.is_empty());
        let _ = self.map.try_reserve(self.limiter().growth_for_extend(self.len(), n));
        entries.for_each(|(key, value)| _ = self.insert(key, value));
    }
}

impl<K, V, L, S> FromIterator<(K, V)> for LruMap<K, V, L, S>
where
    K: Hash + PartialEq,
    L: for<'a> Limiter<K, V, KeyToInsert<'a> = K> + Default,
    S: BuildHasher + Default,
{
    /// Makes a map with the default limiter, and inserts the entries as [`extend`](LruMap::extend) does. The last entry
    /// is the newest.
    ///
    /// ```
    /// use jeerdurian::{LruMap, Unlimited};
    ///
    /// let map: LruMap<u64, u64, Unlimited> = [(1, 10), (2, 20), (1, 11)].into_iter().collect();
    /// assert!(map.iter().eq([(&1, &11), (&2, &20)]));
    /// ```
    fn from_iter<I: IntoIterator<Item = (K, V)>>(entries: I) -> Self {
        let mut map = Self::default();
        map.extend(entries);
        map
    }
}
