//! A map that counts hits, misses, insertions, rejections and evictions.

use crate::erased::lru_caches as proved;
use crate::keys::{Borrowed, Offered};
use crate::limiter::{Calls, Limiter};
use crate::{ByLength, Iter, LruMap, RandomState};
use core::borrow::Borrow;
use core::hash::{BuildHasher, Hash};

/// The hits, misses, insertions, rejections and evictions of a cache.
///
/// ```
/// use jeerdurian::{ByLength, LruMap, caches::{CountedMap, Counts}};
///
/// let mut counted = CountedMap::new(LruMap::new(ByLength::new(1)));
/// counted.insert(1, 10);
/// counted.get(&2);
/// assert_eq!(counted.take_counts(), Counts { insertions: 1, misses: 1, ..Counts::default() });
/// ```
pub use crate::erased::lru_caches::Counts;

/// A map that counts its look-ups and its inserts.
///
/// Proved: each call does what the map's call does, and the counts are exact, up to `u64::MAX`.
///
/// ```
/// use jeerdurian::{ByLength, LruMap, caches::CountedMap};
///
/// let mut counted = CountedMap::new(LruMap::new(ByLength::new(1)));
/// assert!(counted.insert("a", 1) && counted.insert("b", 2));
/// assert_eq!((counted.get(&"a").copied(), counted.get(&"b").copied()), (None, Some(2)));
/// let counts = counted.counts();
/// assert_eq!((counts.hits, counts.misses, counts.insertions, counts.evictions), (1, 1, 2, 1));
/// ```
pub struct CountedMap<K, V, L = ByLength, S = RandomState>
where
    K: Eq + Hash,
    L: Limiter<K, V>,
    S: BuildHasher,
{
    counted: proved::CountedMap<K, V, Calls<L>, S>,
}

impl<K: Eq + Hash, V, L: Limiter<K, V>, S: BuildHasher> CountedMap<K, V, L, S> {
    /// Counts the calls on this map from now on. Cost: `O(1)`.
    pub fn new(map: LruMap<K, V, L, S>) -> Self {
        CountedMap { counted: proved::CountedMap::new(map.map) }
    }

    /// Returns the counts. Cost: `O(1)`.
    pub fn counts(&self) -> Counts {
        self.counted.counts()
    }

    /// Returns the counts, and resets them to zero. Cost: `O(1)`.
    pub fn take_counts(&mut self) -> Counts {
        self.counted.take_counts()
    }

    /// Returns the map, and drops the counts. Cost: `O(1)`.
    pub fn into_map(self) -> LruMap<K, V, L, S> {
        LruMap { map: self.counted.into_map() }
    }

    /// Returns the entries, the newest first. The order stays, and nothing is counted. Cost: `O(1)`, and `O(1)` for
    /// each step from either end.
    ///
    /// ```
    /// use jeerdurian::{ByLength, LruMap, caches::CountedMap};
    ///
    /// let mut counted = CountedMap::new(LruMap::new(ByLength::new(2)));
    /// assert!(counted.insert("a", 1));
    /// assert!(counted.iter().eq([(&"a", &1)]));
    /// assert_eq!(counted.counts().hits, 0);
    /// ```
    pub fn iter(&self) -> Iter<'_, K, V, L> {
        Iter::new(self.counted.map())
    }

    /// Returns whether a key is there. The order stays, and nothing is counted. Cost: `O(1)` expected.
    ///
    /// ```
    /// # use jeerdurian::{ByLength, LruMap, caches::CountedMap};
    /// let mut counted = CountedMap::new(LruMap::new(ByLength::new(2)));
    /// assert!(counted.insert("a", 1) && counted.contains(&"a") && !counted.contains(&"b"));
    /// ```
    pub fn contains<Q>(&self, key: &Q) -> bool
    where
        K: Borrow<Q>,
        Q: Eq + Hash + ?Sized,
    {
        self.counted.map().contains(&Borrowed(key))
    }

    /// Returns the limiter. Cost: `O(1)`.
    ///
    /// ```
    /// # use jeerdurian::{ByLength, LruMap, caches::CountedMap};
    /// let counted: CountedMap<u64, u64> = CountedMap::new(LruMap::new(ByLength::new(2)));
    /// assert_eq!(counted.limiter().max_length(), 2);
    /// ```
    pub fn limiter(&self) -> &L {
        &self.counted.map().limiter().0
    }

    /// Returns the number of entries. Cost: `O(1)`.
    pub fn len(&self) -> usize {
        self.counted.map().len()
    }

    /// Returns whether there are no entries. Cost: `O(1)`.
    pub fn is_empty(&self) -> bool {
        self.counted.map().is_empty()
    }

    /// Returns the value of a key. The order stays, and nothing is counted. Cost: `O(1)` expected.
    pub fn peek<Q>(&self, key: &Q) -> Option<&V>
    where
        K: Borrow<Q>,
        Q: Eq + Hash + ?Sized,
    {
        self.counted.map().peek(&Borrowed(key))
    }

    /// Returns the value of a key, as the newest, and counts a hit. If the key is not there, counts a miss. Cost:
    /// `O(1)` expected.
    pub fn get<Q>(&mut self, key: &Q) -> Option<&V>
    where
        K: Borrow<Q>,
        Q: Eq + Hash + ?Sized,
    {
        if !self.counted.promote(&Borrowed(key)) {
            return None;
        }
        self.counted.map().peek_newest().map(|(_, value)| value)
    }

    /// Does what `LruMap::insert` does, and counts the insert: as an insertion if it returns true, and as a rejection
    /// if it returns false. If memory runs out, it returns false, and counts only the evicted entries. Cost: as
    /// [`LruMap::insert`].
    pub fn insert<'a>(&mut self, key: L::KeyToInsert<'a>, value: V) -> bool
    where
        L::KeyToInsert<'a>: Hash + PartialEq<K>,
    {
        self.counted.insert(Offered(key), value).unwrap_or(false)
    }

    /// Does what `LruMap::remove` does. A removal counts nothing. Cost: `O(1)` expected.
    pub fn remove<Q>(&mut self, key: &Q) -> Option<V>
    where
        K: Borrow<Q>,
        Q: Eq + Hash + ?Sized,
    {
        self.counted.remove(&Borrowed(key))
    }
}
