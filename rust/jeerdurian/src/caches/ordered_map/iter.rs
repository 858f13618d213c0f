//! Iterators over the entries of an ordered map.

use super::OrderedMap;
use crate::iter::{WalkMut, passes_on};
use core::hash::{BuildHasher, Hash};
use core::iter::{Map, Rev};

/// An iterator over the entries of an [`OrderedMap`], oldest first, from both ends.
///
/// ```
/// # let mut map = jeerdurian::caches::OrderedMap::new();
/// # map.insert(1, 11).unwrap();
/// # map.insert(2, 20).unwrap();
/// let mut entries = map.iter();
/// assert_eq!((entries.len(), entries.next(), entries.next_back()), (2, Some((&1, &11)), Some((&2, &20))));
/// ```
pub use crate::erased::lru_caches::Entries;

/// An iterator that owns an [`OrderedMap`] and takes its entries out, oldest first, from both ends.
///
/// ```
/// # let mut map = jeerdurian::caches::OrderedMap::new();
/// # map.insert(1, 11).unwrap();
/// # map.insert(2, 20).unwrap();
/// let mut entries = map.into_iter();
/// assert_eq!((entries.len(), entries.next(), entries.next_back()), (2, Some((1, 11)), Some((2, 20))));
/// ```
pub use crate::erased::lru_caches::IntoEntries;

/// An iterator over the keys of an [`OrderedMap`], oldest first, from both ends.
///
/// ```
/// # let mut map = jeerdurian::caches::OrderedMap::new();
/// # map.insert(1, 11).unwrap();
/// # map.insert(2, 20).unwrap();
/// assert!(map.keys().eq([&1, &2]));
/// ```
pub use crate::erased::lru_caches::Keys;

/// An iterator over the values of an [`OrderedMap`], oldest first, from both ends.
///
/// ```
/// # let mut map = jeerdurian::caches::OrderedMap::new();
/// # map.insert(1, 11).unwrap();
/// # map.insert(2, 20).unwrap();
/// assert!(map.values().rev().eq([&20, &11]));
/// ```
pub use crate::erased::lru_caches::Values;

/// An iterator over the entries of an [`OrderedMap`] that lends their values for writing, oldest first, from both ends.
///
/// Like [`IterMut`](crate::IterMut), it is not proved.
pub struct EntriesMut<'a, K, V> {
    walk: Rev<WalkMut<'a, K, V, usize>>,
}

/// An iterator that lends the values of an [`OrderedMap`] for writing, oldest first, from both ends. It is not proved.
pub struct ValuesMut<'a, K, V> {
    values: Map<EntriesMut<'a, K, V>, TakeValue<'a, K, V>>,
}

type TakeValue<'a, K, V> = fn((&'a K, &'a mut V)) -> &'a mut V;

passes_on!(['a, K, V] EntriesMut<'a, K, V>, (&'a K, &'a mut V), walk);
passes_on!(['a, K, V] ValuesMut<'a, K, V>, &'a mut V, values);

impl<K: Eq + Hash, V, S: BuildHasher> OrderedMap<K, V, S> {
    /// Lends the entries for writing to their values, oldest first. The order stays. Cost: as `iter`.
    ///
    /// ```
    /// # let mut map = jeerdurian::caches::OrderedMap::new();
    /// # map.insert(1, 11).unwrap();
    /// # map.insert(2, 20).unwrap();
    /// map.iter_mut().for_each(|(key, value)| *value += key);
    /// assert!(map.iter().eq([(&1, &12), (&2, &22)]));
    /// ```
    pub fn iter_mut(&mut self) -> EntriesMut<'_, K, V> {
        EntriesMut { walk: WalkMut::new(&mut self.map.map.entries).rev() }
    }

    /// Lends the values for writing, in the order of the entries, oldest first. The order stays. Cost: as `iter`.
    ///
    /// ```
    /// # let mut map = jeerdurian::caches::OrderedMap::new();
    /// # map.insert(1, 11).unwrap();
    /// # map.insert(2, 20).unwrap();
    /// map.values_mut().for_each(|value| *value += 1);
    /// assert!(map.values().eq([&12, &21]));
    /// ```
    pub fn values_mut(&mut self) -> ValuesMut<'_, K, V> {
        ValuesMut { values: self.iter_mut().map(|(_, value)| value) }
    }
}

impl<'a, K: Eq + Hash, V, S: BuildHasher> IntoIterator for &'a OrderedMap<K, V, S> {
    type Item = (&'a K, &'a V);
    type IntoIter = Entries<'a, K, V>;

    fn into_iter(self) -> Entries<'a, K, V> {
        self.iter()
    }
}

impl<'a, K: Eq + Hash, V, S: BuildHasher> IntoIterator for &'a mut OrderedMap<K, V, S> {
    type Item = (&'a K, &'a mut V);
    type IntoIter = EntriesMut<'a, K, V>;

    fn into_iter(self) -> EntriesMut<'a, K, V> {
        self.iter_mut()
    }
}

impl<K: Eq + Hash, V, S: BuildHasher> IntoIterator for OrderedMap<K, V, S> {
    type Item = (K, V);
    type IntoIter = IntoEntries<K, V, S>;

    fn into_iter(self) -> IntoEntries<K, V, S> {
        self.map.into_iter()
    }
}
