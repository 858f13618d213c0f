//! A hash map in the order of insertion.

mod constructors;
mod iter;
mod traits;

use crate::erased::lru_caches as proved;
use crate::keys::Borrowed;
use crate::rattle_std::alloc::AllocError;
use crate::{RandomState, ReserveError};
use core::borrow::Borrow;
use core::hash::{BuildHasher, Hash};

pub use iter::{Entries, EntriesMut, IntoEntries, Keys, Values, ValuesMut};

/// A hash map whose entries are in the order of insertion, oldest first.
///
/// An insert of a key that is there keeps the key's place. A removal keeps the order of the other entries, and takes
/// `O(1)`. The map evicts nothing: if its table cannot grow, an insert fails and changes nothing.
///
/// Proved: each call changes and returns what the same call on a list of the entries would.
///
/// In the examples of the calls, `map` contains (1, 11) and, as the newest, (2, 20).
///
/// ```
/// use jeerdurian::caches::OrderedMap;
///
/// # fn main() -> Result<(), jeerdurian::AllocError> {
/// let mut map = OrderedMap::new();
/// assert_eq!((map.insert(1, 10)?, map.insert(2, 20)?), (None, None));
/// assert_eq!(map.insert(1, 11)?, Some(10));
/// assert!(map.iter().eq([(&1, &11), (&2, &20)]));
/// # Ok(())
/// # }
/// ```
pub struct OrderedMap<K: Eq + Hash, V, S: BuildHasher = RandomState> {
    map: proved::OrderedMap<K, V, S>,
}

impl<K: Eq + Hash, V, S: BuildHasher> OrderedMap<K, V, S> {
    /// Returns the number of entries. Cost: `O(1)`.
    ///
    /// ```
    /// # let mut map = jeerdurian::caches::OrderedMap::new();
    /// # map.insert(1, 11).unwrap();
    /// # map.insert(2, 20).unwrap();
    /// assert_eq!(map.len(), 2);
    /// ```
    pub fn len(&self) -> usize {
        self.map.len()
    }

    /// Returns whether there are no entries. Cost: `O(1)`.
    ///
    /// ```
    /// # let mut map = jeerdurian::caches::OrderedMap::new();
    /// # map.insert(1, 11).unwrap();
    /// # map.insert(2, 20).unwrap();
    /// assert!(!map.is_empty());
    /// ```
    pub fn is_empty(&self) -> bool {
        self.map.is_empty()
    }

    /// Returns whether a key is in the map.
    ///
    /// Cost: `O(1)` expected.
    ///
    /// ```
    /// # let mut map = jeerdurian::caches::OrderedMap::new();
    /// # map.insert(1, 11).unwrap();
    /// # map.insert(2, 20).unwrap();
    /// assert!(map.contains_key(&1) && !map.contains_key(&9));
    /// ```
    pub fn contains_key<Q>(&self, key: &Q) -> bool
    where
        K: Borrow<Q>,
        Q: Eq + Hash + ?Sized,
    {
        self.map.contains_key(&Borrowed(key))
    }

    /// Returns the value of a key.
    ///
    /// Cost: `O(1)` expected.
    ///
    /// ```
    /// # let mut map = jeerdurian::caches::OrderedMap::new();
    /// # map.insert(1, 11).unwrap();
    /// # map.insert(2, 20).unwrap();
    /// assert_eq!((map.get(&1), map.get(&9)), (Some(&11), None));
    /// ```
    pub fn get<Q>(&self, key: &Q) -> Option<&V>
    where
        K: Borrow<Q>,
        Q: Eq + Hash + ?Sized,
    {
        self.map.get(&Borrowed(key))
    }

    /// Lends the value of a key for writing. The order stays.
    ///
    /// Cost: `O(1)` expected.
    ///
    /// ```
    /// # let mut map = jeerdurian::caches::OrderedMap::new();
    /// # map.insert(1, 11).unwrap();
    /// # map.insert(2, 20).unwrap();
    /// *map.get_mut(&2).unwrap() = 22;
    /// assert_eq!(map.get(&2), Some(&22));
    /// ```
    pub fn get_mut<Q>(&mut self, key: &Q) -> Option<&mut V>
    where
        K: Borrow<Q>,
        Q: Eq + Hash + ?Sized,
    {
        self.map.get_mut(&Borrowed(key))
    }

    /// Returns the stored key and the value of a key.
    ///
    /// Cost: `O(1)` expected.
    ///
    /// ```
    /// # let mut map = jeerdurian::caches::OrderedMap::new();
    /// # map.insert(1, 11).unwrap();
    /// # map.insert(2, 20).unwrap();
    /// assert_eq!((map.get_key_value(&1), map.get_key_value(&9)), (Some((&1, &11)), None));
    /// ```
    pub fn get_key_value<Q>(&self, key: &Q) -> Option<(&K, &V)>
    where
        K: Borrow<Q>,
        Q: Eq + Hash + ?Sized,
    {
        self.map.get_key_value(&Borrowed(key))
    }

    /// Returns the oldest entry. Cost: `O(1)`.
    ///
    /// ```
    /// # let mut map = jeerdurian::caches::OrderedMap::new();
    /// # map.insert(1, 11).unwrap();
    /// # map.insert(2, 20).unwrap();
    /// assert_eq!(map.first(), Some((&1, &11)));
    /// ```
    pub fn first(&self) -> Option<(&K, &V)> {
        self.map.first()
    }

    /// Returns the newest entry. Cost: `O(1)`.
    ///
    /// ```
    /// # let mut map = jeerdurian::caches::OrderedMap::new();
    /// # map.insert(1, 11).unwrap();
    /// # map.insert(2, 20).unwrap();
    /// assert_eq!(map.last(), Some((&2, &20)));
    /// ```
    pub fn last(&self) -> Option<(&K, &V)> {
        self.map.last()
    }

    /// Inserts a key with a value as the newest entry. If the key is there, its entry keeps its key and its place, and
    /// the insert returns the old value.
    ///
    /// Cost: `O(1)` expected, amortised over the inserts. An insert that grows the table moves all entries.
    ///
    /// # Errors
    ///
    /// Out of memory for a new key. Nothing has changed then.
    ///
    /// ```
    /// # let mut map = jeerdurian::caches::OrderedMap::new();
    /// # map.insert(1, 11).unwrap();
    /// # map.insert(2, 20).unwrap();
    /// assert_eq!((map.insert(3, 30), map.insert(1, 10)), (Ok(None), Ok(Some(11))));
    /// assert!(map.keys().eq([&1, &2, &3]));
    /// ```
    pub fn insert(&mut self, key: K, value: V) -> Result<Option<V>, AllocError> {
        self.map.insert(key, value)
    }

    /// Removes a key, and returns its value. The other entries keep their order.
    ///
    /// Cost: `O(1)` expected.
    ///
    /// ```
    /// # let mut map = jeerdurian::caches::OrderedMap::new();
    /// # map.insert(1, 11).unwrap();
    /// # map.insert(2, 20).unwrap();
    /// assert_eq!((map.remove(&2), map.remove(&2)), (Some(20), None));
    /// ```
    pub fn remove<Q>(&mut self, key: &Q) -> Option<V>
    where
        K: Borrow<Q>,
        Q: Eq + Hash + ?Sized,
    {
        self.map.remove(&Borrowed(key))
    }

    /// Removes a key, and returns the stored key and its value. The other entries keep their order.
    ///
    /// Cost: `O(1)` expected.
    ///
    /// ```
    /// # let mut map = jeerdurian::caches::OrderedMap::new();
    /// # map.insert(1, 11).unwrap();
    /// # map.insert(2, 20).unwrap();
    /// assert_eq!((map.remove_entry(&2), map.remove_entry(&2)), (Some((2, 20)), None));
    /// ```
    pub fn remove_entry<Q>(&mut self, key: &Q) -> Option<(K, V)>
    where
        K: Borrow<Q>,
        Q: Eq + Hash + ?Sized,
    {
        self.map.remove_entry(&Borrowed(key))
    }

    /// Removes and returns the oldest entry. Cost: `O(1)`.
    ///
    /// ```
    /// # let mut map = jeerdurian::caches::OrderedMap::new();
    /// # map.insert(1, 11).unwrap();
    /// # map.insert(2, 20).unwrap();
    /// assert_eq!(map.pop_first(), Some((1, 11)));
    /// ```
    pub fn pop_first(&mut self) -> Option<(K, V)> {
        self.map.pop_first()
    }

    /// Removes and returns the newest entry. Cost: `O(1)`.
    ///
    /// ```
    /// # let mut map = jeerdurian::caches::OrderedMap::new();
    /// # map.insert(1, 11).unwrap();
    /// # map.insert(2, 20).unwrap();
    /// assert_eq!(map.pop_last(), Some((2, 20)));
    /// ```
    pub fn pop_last(&mut self) -> Option<(K, V)> {
        self.map.pop_last()
    }

    /// Makes the entry of a key the newest, and returns whether the key is there. The other entries keep their order.
    ///
    /// Cost: `O(1)` expected.
    ///
    /// ```
    /// # let mut map = jeerdurian::caches::OrderedMap::new();
    /// # map.insert(1, 11).unwrap();
    /// # map.insert(2, 20).unwrap();
    /// assert!(map.move_to_back(&1) && !map.move_to_back(&9));
    /// assert_eq!(map.last(), Some((&1, &11)));
    /// ```
    pub fn move_to_back<Q>(&mut self, key: &Q) -> bool
    where
        K: Borrow<Q>,
        Q: Eq + Hash + ?Sized,
    {
        self.map.move_to_back(&Borrowed(key))
    }

    /// Removes the entries for which the closure returns false. Calls the closure with each entry, oldest first.
    ///
    /// Cost: `O(len)`.
    ///
    /// ```
    /// # let mut map = jeerdurian::caches::OrderedMap::new();
    /// # map.insert(1, 11).unwrap();
    /// # map.insert(2, 20).unwrap();
    /// map.retain(|key, value| *key == 1 || *value > 30);
    /// assert!(map.keys().eq([&1]));
    /// ```
    pub fn retain(&mut self, keep: impl FnMut(&K, &V) -> bool) {
        self.map.retain(keep);
    }

    /// Drops all entries. The table keeps its memory. Cost: `O(buckets)`; `O(1)` if every bucket is empty.
    ///
    /// ```
    /// # let mut map = jeerdurian::caches::OrderedMap::new();
    /// # map.insert(1, 11).unwrap();
    /// # map.insert(2, 20).unwrap();
    /// map.clear();
    /// assert!(map.is_empty());
    /// ```
    pub fn clear(&mut self) {
        self.map.clear();
    }

    /// Returns the entries, oldest first. Cost: `O(1)`, and `O(1)` for each step from either end.
    ///
    /// ```
    /// # let mut map = jeerdurian::caches::OrderedMap::new();
    /// # map.insert(1, 11).unwrap();
    /// # map.insert(2, 20).unwrap();
    /// assert!(map.iter().eq([(&1, &11), (&2, &20)]));
    /// ```
    pub fn iter(&self) -> Entries<'_, K, V> {
        self.map.iter()
    }

    /// Returns the keys, oldest first. Cost: as `iter`.
    ///
    /// ```
    /// # let mut map = jeerdurian::caches::OrderedMap::new();
    /// # map.insert(1, 11).unwrap();
    /// # map.insert(2, 20).unwrap();
    /// assert!(map.keys().eq([&1, &2]));
    /// ```
    pub fn keys(&self) -> Keys<'_, K, V> {
        self.map.keys()
    }

    /// Returns the values, in the order of the entries, oldest first. Cost: as `iter`.
    ///
    /// ```
    /// # let mut map = jeerdurian::caches::OrderedMap::new();
    /// # map.insert(1, 11).unwrap();
    /// # map.insert(2, 20).unwrap();
    /// assert!(map.values().eq([&11, &20]));
    /// ```
    pub fn values(&self) -> Values<'_, K, V> {
        self.map.values()
    }

    /// Reserves growth for n more entries, so that inserting them does not grow the table.
    ///
    /// Cost: `O(1)` if there is enough growth left, else `O(old buckets + new buckets)`.
    ///
    /// # Errors
    ///
    /// No table is large enough, or the map runs out of memory. Nothing has changed then.
    ///
    /// ```
    /// # let mut map = jeerdurian::caches::OrderedMap::new();
    /// # map.insert(1, 11).unwrap();
    /// # map.insert(2, 20).unwrap();
    /// assert_eq!(map.try_reserve(100), Ok(()));
    /// ```
    pub fn try_reserve(&mut self, n: usize) -> Result<(), ReserveError> {
        self.map.try_reserve(n)
    }

    /// Shrinks the table to the fewest buckets that hold the entries, and returns whether it had more buckets.
    ///
    /// Cost: `O(1)` if the table stays, else `O(buckets)`.
    ///
    /// # Errors
    ///
    /// Out of memory. Nothing has changed then.
    ///
    /// ```
    /// # let mut map = jeerdurian::caches::OrderedMap::new();
    /// # map.insert(1, 11).unwrap();
    /// # map.insert(2, 20).unwrap();
    /// assert_eq!(map.try_reserve(100), Ok(()));
    /// assert_eq!((map.shrink_to_fit(), map.shrink_to_fit()), (Ok(true), Ok(false)));
    /// ```
    pub fn shrink_to_fit(&mut self) -> Result<bool, AllocError> {
        self.map.shrink_to_fit()
    }
}
