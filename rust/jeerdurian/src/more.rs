//! The calls that `schnellru` lacks, as a trait: inherent methods would hide the methods of your traits.

mod calls;

use crate::entry::OccupiedEntry;
use crate::fallible::Fallible;
use crate::iter::{Keys, Values};
use crate::limiter::{Admission, Limiter};
use crate::map::LruMap;
use crate::rattle_std::alloc::AllocError;
use crate::{Inserted, MoveReport, ReserveError, Updated};
use core::hash::{BuildHasher, Hash};

/// Calls of [`LruMap`] that `schnellru` lacks. Import it to use them. What their docs say about entries, order and
/// result is proved of the sources, as for `LruMap`.
///
/// ```
/// use jeerdurian::{ByLength, LruMap, More};
///
/// let mut map = LruMap::new(ByLength::new(3));
/// for n in 1..=3 {
///     map.insert(n, 10 * n);
/// }
/// assert!(map.contains(&1) && map.promote(&1) && map.demote(&3));
/// map.retain(|_, value| *value != 20);
/// assert!(map.keys().eq([&1, &3]));
/// ```
#[allow(private_bounds)]
pub trait More<K, V, L, S>: Sealed
where
    K: Hash + PartialEq,
    S: BuildHasher,
    L: Limiter<K, V>,
{
    /// Returns whether a key is there. The order of use stays. Proved: the answer is exact. Cost: `O(1)` expected.
    fn contains(&self, key: &(impl Hash + PartialEq<K> + ?Sized)) -> bool;

    /// Returns the stored key and the value of a key. The order of use stays. Proved: it is this key's entry, and
    /// `None` exactly if there is none. Cost: `O(1)` expected.
    fn peek_key_value(&self, key: &(impl Hash + PartialEq<K> + ?Sized)) -> Option<(&K, &V)>;

    /// Returns the stored key and the value of a key, and makes its entry the newest. Proved: it is this key's entry;
    /// the others keep their order. Cost: `O(1)` expected.
    fn get_key_value(&mut self, key: &(impl Hash + PartialEq<K> + ?Sized)) -> Option<(&K, &V)>;

    /// Makes the entry of a key the newest. Returns whether the key is there. Proved: the other entries keep their
    /// order, and without this key nothing changes. Cost: `O(1)` expected.
    fn promote(&mut self, key: &(impl Hash + PartialEq<K> + ?Sized)) -> bool;

    /// Makes the entry of a key the oldest, the next to be evicted. Returns whether the key is there. Proved: the other
    /// entries keep their order, and without this key nothing changes. Cost: `O(1)` expected.
    fn demote(&mut self, key: &(impl Hash + PartialEq<K> + ?Sized)) -> bool;

    /// Searches for a key once, and returns a handle that reads, writes, moves or removes its entry. The order of use
    /// stays. Proved: it is this key's entry, and `None` exactly if there is none. Cost: `O(1)` expected.
    ///
    /// ```
    /// use jeerdurian::{ByLength, LruMap, More};
    ///
    /// let mut map = LruMap::new(ByLength::new(3));
    /// map.insert("a".to_string(), 1);
    /// if let Some(mut entry) = map.find_entry("a") {
    ///     *entry.get_mut() += 1;
    ///     if *entry.get() < 3 {
    ///         entry.promote();
    ///     } else {
    ///         entry.remove();
    ///     }
    /// }
    /// assert_eq!(map.peek("a"), Some(&2));
    /// ```
    fn find_entry(&mut self, key: &(impl Hash + PartialEq<K> + ?Sized)) -> Option<OccupiedEntry<'_, K, V, L, S>>;

    /// Returns a handle on the entry with this [hash](LruMap::get_by_hash) that the closure accepts. Proved: the same as
    /// for [`LruMap::get_by_hash`], except the promotion. Cost: as `get_by_hash`.
    fn find_entry_by_hash(
        &mut self,
        hash: u64,
        is_eq: impl FnMut(&K, &V) -> bool,
    ) -> Option<OccupiedEntry<'_, K, V, L, S>>;

    /// Lends the newest value for writing. Proved: what is written is the value of the newest entry, and no other entry
    /// changes. Cost: `O(1)`.
    fn newest_mut(&mut self) -> Option<&mut V>;

    /// Returns the entry at an index; the newest has index 0. Cost: `O(index)`. Proved: it is the entry at this place
    /// of the order, and `None` exactly if there are too few.
    fn get_index(&self, index: usize) -> Option<(&K, &V)>;

    /// Returns the index of a key's entry; the newest has index 0. Cost: `O(len)`. Proved: it is the place of this
    /// key's entry in the order, and `None` exactly if there is none.
    fn get_index_of(&self, key: &(impl Hash + PartialEq<K> + ?Sized)) -> Option<usize>;

    /// Returns the entry one step older than the entry of a key. Cost: `O(1)` expected. Proved: it is the entry behind
    /// the key's entry in the order, and `None` exactly if the key is not there or its entry is the oldest.
    fn peek_older(&self, key: &(impl Hash + PartialEq<K> + ?Sized)) -> Option<(&K, &V)>;

    /// Returns the entry one step newer than the entry of a key. Cost: `O(1)` expected. Proved: it is the entry before
    /// the key's entry in the order, and `None` exactly if the key is not there or its entry is the newest.
    fn peek_newer(&self, key: &(impl Hash + PartialEq<K> + ?Sized)) -> Option<(&K, &V)>;

    /// Returns the keys, the newest first. Proved: each key comes once, in the order of use, from either end. Cost:
    /// `O(1)`, and `O(1)` for each step from either end.
    fn keys(&self) -> Keys<'_, K, V, L>;

    /// Returns the values, the newest first. Proved: each value comes once, in the order of use, from either end. Cost:
    /// as `keys`.
    fn values(&self) -> Values<'_, K, V, L>;

    /// Removes a key. Returns the stored key and its value, as the limiter left them. Proved: only this key's entry is
    /// gone, and the limiter was notified of it. Cost: `O(1)` expected.
    fn remove_entry(&mut self, key: &(impl Hash + PartialEq<K> + ?Sized)) -> Option<(K, V)>;

    /// Removes the entries that `keep` rejects. Calls `keep` once for each entry, from the oldest to the newest.
    /// Proved: the entries that `keep` accepted stay, in their order, and the limiter was notified of each removed
    /// entry. Cost: `O(n)` for n entries.
    fn retain(&mut self, keep: impl FnMut(&K, &V) -> bool);

    /// Does what `retain` does, and passes each removed entry to a callback before it calls `keep` again. Proved: the
    /// same as for `retain`, and that the callback gets each removed entry once. Cost: as `retain`, plus the calls of
    /// the callback.
    fn retain_with(&mut self, keep: impl FnMut(&K, &V) -> bool, removed: impl FnMut(K, V));

    /// Removes the oldest entry if the closure accepts it. Proved: otherwise nothing changes. Cost: `O(1)`, and one
    /// call of the closure.
    fn pop_oldest_if(&mut self, accepts: impl FnOnce(&K, &V) -> bool) -> Option<(K, V)>;

    /// Inserts as [`LruMap::insert`] does, and passes to a callback each entry that the map evicts, removes, or cannot
    /// store. Proved: the callback gets each of these entries once, in their order, as the limiter left it. Cost: as
    /// [`LruMap::insert`], plus the calls of the callback.
    fn insert_with<'a>(&mut self, key: L::KeyToInsert<'a>, value: V, lost: impl FnMut(K, V)) -> bool
    where
        L::KeyToInsert<'a>: Hash + PartialEq<K>;

    /// Does what `insert_with` does. If the key was there, also returns the old value, or the new value if the limiter
    /// rejects it. Out of memory, returns no value. Proved: the same as for `insert_with`, and the returned value.
    /// Cost: as `insert_with`.
    fn insert_full<'a>(&mut self, key: L::KeyToInsert<'a>, value: V, lost: impl FnMut(K, V)) -> Inserted<V>
    where
        L::KeyToInsert<'a>: Hash + PartialEq<K>;

    /// Inserts an absent key if the limiter accepts the entry, nothing has to be evicted, and the table has or gets a
    /// bucket for the entry. Proved: after an `Ok`, the new entry comes before all old entries, and the map is within
    /// its limit. Cost: `O(1)` expected, amortised over the inserts, with one search for the key. If no growth is left,
    /// the call also costs as much as `try_reserve(1)`.
    ///
    /// # Errors
    ///
    /// Returns the key and the value, and no entry has changed.
    ///
    /// ```
    /// use jeerdurian::{ByLength, LruMap, More};
    ///
    /// let mut map = LruMap::new(ByLength::new(1));
    /// assert_eq!(map.try_insert(1, 10), Ok(()));
    /// assert_eq!(map.try_insert(2, 20), Err((2, 20)));
    /// ```
    fn try_insert(&mut self, key: K, value: V) -> Result<(), (K, V)>
    where
        L: Admission<K, V> + Copy;

    /// Replaces the value of a key that is there, if the limiter accepts the new value. The entry keeps its place.
    /// Proved: the entries keep their order, and without this key nothing changes. Cost: `O(1)` expected, and `O(1)`
    /// for each entry that is evicted.
    fn update<'a>(&mut self, key: L::KeyToInsert<'a>, value: V) -> Updated<V>
    where
        L::KeyToInsert<'a>: Hash + PartialEq<K>;

    /// Updates as [`update`](Self::update) does, and passes each entry that the map evicts or removes to a callback.
    /// Proved: the same as for `update`, and that the callback gets each of these entries once, in order. Cost: as
    /// `update`, plus the calls of the callback.
    ///
    /// ```
    /// use jeerdurian::{ByCost, LruMap, More, Updated};
    ///
    /// let mut map: LruMap<u64, u64, ByCost> = LruMap::new(ByCost::new(30));
    /// map.extend([(1, 10), (2, 20)]);
    /// let mut lost = Vec::new();
    /// assert_eq!(map.update_with(2, 25, |key, _| lost.push(key)), Updated::Replaced(20));
    /// assert_eq!(lost, [1]);
    /// ```
    fn update_with<'a>(&mut self, key: L::KeyToInsert<'a>, value: V, lost: impl FnMut(K, V)) -> Updated<V>
    where
        L::KeyToInsert<'a>: Hash + PartialEq<K>;

    /// Evicts the oldest entries while the limiter is over its limit. Proved: afterwards the map is within its limit or
    /// empty, and only the oldest entries are gone. Cost: `O(1)` for each entry that is evicted.
    fn trim(&mut self);

    /// Trims as [`trim`](Self::trim) does, and passes each evicted entry to a callback, the oldest first. Proved: the
    /// same as for `trim`, and that the callback gets each evicted entry once. Cost: as `trim`, plus the calls of the
    /// callback.
    ///
    /// ```
    /// use jeerdurian::{ByLength, LruMap, More};
    ///
    /// let mut map = LruMap::new(ByLength::new(3));
    /// map.extend([(1, 10), (2, 20), (3, 30)]);
    /// *map.limiter_mut() = ByLength::new(1);
    /// let mut evicted = Vec::new();
    /// map.trim_with(|key, value| evicted.push((key, value)));
    /// assert_eq!(evicted, [(1, 10), (2, 20)]);
    /// ```
    fn trim_with(&mut self, evicted: impl FnMut(K, V));

    /// Sets the limiter, and evicts the oldest entries while it is over its limit. Returns the old limiter. The map
    /// does not compute a running total for the new limiter. Proved: the same as for `trim`, under the new limiter.
    /// Cost: `O(1)` for each entry that is evicted.
    fn set_limiter(&mut self, limiter: L) -> L;

    /// Sets the limiter as [`set_limiter`](Self::set_limiter) does, and passes each evicted entry to a callback, the
    /// oldest first. Proved: the same as for `trim_with`, under the new limiter. Cost: as `set_limiter`, plus the calls
    /// of the callback.
    ///
    /// ```
    /// use jeerdurian::{ByLength, LruMap, More};
    ///
    /// let mut map = LruMap::new(ByLength::new(3));
    /// map.extend([(1, 10), (2, 20), (3, 30)]);
    /// let mut evicted = Vec::new();
    /// map.set_limiter_with(ByLength::new(2), |key, value| evicted.push((key, value)));
    /// assert_eq!(evicted, [(1, 10)]);
    /// ```
    fn set_limiter_with(&mut self, limiter: L, evicted: impl FnMut(K, V)) -> L;

    /// Returns the hasher. Proved: it is the hasher that the map was made with. Cost: `O(1)`.
    fn hasher(&self) -> &S;

    /// Reserves growth for at least `additional` new entries. Proved: an `Ok` leaves growth for these entries, and the
    /// stored entries stay in any case. Cost: `O(1)` if there is enough growth left, else `O(old buckets + new
    /// buckets)`.
    ///
    /// # Errors
    ///
    /// Says why the table is not large enough. Nothing has changed then.
    fn try_reserve(&mut self, additional: usize) -> Result<(), ReserveError>;

    /// Moves the entries into the smallest table that holds them. Returns whether it moved them; false if memory ran
    /// out. Proved: the entries and their order stay, and after true no table with fewer buckets would hold them. Cost:
    /// `O(1)` if the table stays, else `O(buckets)` and three allocations.
    fn shrink_to_fit(&mut self) -> bool;

    /// Returns how many entries were stored, were moved by inserts, and were rehashed by shrinks.
    ///
    /// Proved: `moved` is at most twice `placed` plus `shrunk`. Cost: `O(1)`.
    fn move_report(&self) -> MoveReport;

    /// Clones the map as `clone` does. Proved: the clone has the map's entries, in the same order. Cost: as `clone`.
    ///
    /// # Errors
    ///
    /// Out of memory for the table. If a `Clone` of a key or a value runs out of memory, it cannot return an error: the
    /// clones of std end the program.
    ///
    /// ```
    /// use jeerdurian::{ByLength, LruMap, More};
    ///
    /// # fn main() -> Result<(), jeerdurian::AllocError> {
    /// let mut map = LruMap::new(ByLength::new(3));
    /// map.extend([(1, 10), (2, 20)]);
    /// assert!(map.try_clone()? == map);
    /// # Ok(())
    /// # }
    /// ```
    fn try_clone(&self) -> Result<LruMap<K, V, L, S>, AllocError>
    where
        K: Clone,
        V: Clone,
        L: Clone,
        S: Clone;

    /// Returns forms of the calls that need memory, which return an error when it runs out. Cost: `O(1)`.
    fn fallible(&mut self) -> Fallible<'_, K, V, L, S>;
}

/// Only [`LruMap`] implements [`More`], so that calls can be added.
pub(crate) trait Sealed {}

impl<K, V, L: Limiter<K, V>, S> Sealed for LruMap<K, V, L, S> {}
