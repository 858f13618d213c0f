//! What the doors `lru` and `hashlink` share: the map below them, and the calls that both crates have.

#[cfg(feature = "hashlink")]
mod oldest_first;

use crate::Unlimited;
use crate::erased::lru_limits::{KeyHasher, LookupKey};
use crate::erased::ordered_table::OrderedTable;
use crate::erased::schnellru as proved;
use crate::fallible::out_of_memory;
use crate::rattle_std::alloc::{AllocError, Global};
use core::hash::{BuildHasher, Hash};

#[cfg(feature = "hashlink")]
pub(crate) use oldest_first::OldestFirst;

/// The table of a cache. Its links are `usize`, so they limit no cache.
pub(crate) type Table<K, V> = OrderedTable<K, V, usize>;

/// The map of a cache. It evicts nothing by itself: the door removes the oldest entry when the door's crate does.
pub(crate) type Map<K, V, S> = proved::LruMap<K, V, Unlimited, S>;

pub(crate) fn new_map<K: Hash + Eq, V, S: BuildHasher>(hasher: S) -> Map<K, V, S> {
    Map::with_limiter_and_hasher(Global, Unlimited, hasher)
}

/// Clones a map. If memory runs out, the program ends, as with both crates.
pub(crate) fn clone_map<K: Clone, V: Clone, S: Clone>(map: &Map<K, V, S>) -> Map<K, V, S> {
    map.try_clone().unwrap_or_else(|_| out_of_memory::<K, V>())
}

/// Returns the hash of the key that `key` names.
#[inline]
pub(crate) fn hash_of<K: Hash + Eq, V, S: BuildHasher>(map: &Map<K, V, S>, key: &impl LookupKey<K>) -> u64 {
    KeyHasher::<K>::hash_named(map.hasher(), key)
}

/// Returns the bucket of a key, or its hash if the key is not there.
#[inline]
pub(crate) fn bucket_or_hash<K: Hash + Eq, V, S: BuildHasher>(map: &Map<K, V, S>, key: &K) -> Result<usize, u64> {
    let hash = hash_of(map, key);
    map.entries.find(hash, key).ok_or(hash)
}

/// Replaces the value in a bucket, and makes its entry the newest. Returns the old value.
#[inline]
pub(crate) fn replace<K, V, S>(map: &mut Map<K, V, S>, b: usize, value: V) -> V {
    map.entries.promote(b);
    core::mem::replace(map.entries.pair_mut(b).1, value)
}

/// Inserts an absent key that has this hash, as the newest. Lends its entry.
///
/// If the key's `Hash` or `==` is wrong, the key may be there already. Then it is there twice, as in an `LruMap`.
#[inline]
pub(crate) fn insert_absent<K: Hash + Eq, V, S: BuildHasher>(
    map: &mut Map<K, V, S>,
    hash: u64,
    key: K,
    value: V,
) -> (&mut K, &mut V) {
    match map.insert_new(hash, key, value, &mut |_, _| {}) {
        Ok(true) => {}
        Ok(false) => panic!("capacity overflow"),
        Err(AllocError) => out_of_memory::<K, V>(),
    }
    map.entries.entry_mut(map.entries.newest())
}

/// The entries of a table that was taken from a map, the oldest first.
pub(crate) struct Taken<K, V>(pub(crate) Table<K, V>);

impl<K, V> Iterator for Taken<K, V> {
    type Item = (K, V);

    #[inline]
    fn next(&mut self) -> Option<(K, V)> {
        if self.0.len() == 0 { None } else { Some(self.0.take_oldest()) }
    }

    fn size_hint(&self) -> (usize, Option<usize>) {
        (self.0.len(), Some(self.0.len()))
    }
}

impl<K, V> DoubleEndedIterator for Taken<K, V> {
    #[inline]
    fn next_back(&mut self) -> Option<(K, V)> {
        if self.0.len() == 0 {
            return None;
        }
        let b = self.0.newest();
        Some(self.0.take(b))
    }
}

/// Defines the iterators of a cache, and the calls whose names and results are the same in both crates.
///
/// `$first` names the entry that an iterator returns first. `$ordered` turns an iterator that begins with the newest
/// entry into an `Ordered<T>`, which begins with `$first`. `LruCache` has the fields `map` and `cap`.
macro_rules! shared_calls {
    ($first:literal, $ordered:path, $promote:ident, $pop:ident, $pop_entry:ident, $pop_lru:ident) => {
        #[doc = concat!("An iterator over the entries of a cache, the ", $first, " first.")]
        pub struct Iter<'a, K, V> {
            walk: Ordered<Walk<'a, K, V, usize>>,
        }

        #[doc = concat!("An iterator that lends the values of a cache for writing, the ", $first, " entry first.")]
        pub struct IterMut<'a, K, V> {
            walk: Ordered<WalkMut<'a, K, V, usize>>,
        }

        /// An iterator that owns the entries of a cache, the oldest first.
        pub struct IntoIter<K, V> {
            entries: Taken<K, V>,
        }

        passes_on!(['a, K, V] Iter<'a, K, V>, (&'a K, &'a V), walk);
        passes_on!(['a, K, V] IterMut<'a, K, V>, (&'a K, &'a mut V), walk);
        passes_on!([K, V] IntoIter<K, V>, (K, V), entries);

        impl<K, V> Clone for Iter<'_, K, V> {
            fn clone(&self) -> Self {
                Iter { walk: self.walk.clone() }
            }
        }

        impl<K, V, S> LruCache<K, V, S> {
            /// Returns the number of entries.
            #[inline]
            pub fn len(&self) -> usize {
                self.map.entries.len()
            }

            /// Returns whether there is no entry.
            #[inline]
            pub fn is_empty(&self) -> bool {
                self.len() == 0
            }

            #[doc = concat!("Returns the entries, the ", $first, " first. The order stays.")]
            #[inline]
            pub fn iter(&self) -> Iter<'_, K, V> {
                Iter { walk: $ordered(self.map.entries.iter()) }
            }

            #[doc = concat!("Lends the entries for writing to their values, the ", $first, " first. The order stays.")]
            #[inline]
            pub fn iter_mut(&mut self) -> IterMut<'_, K, V> {
                IterMut { walk: $ordered(WalkMut::new(&mut self.map.entries)) }
            }
        }

        impl<K: Hash + Eq, V, S: BuildHasher> LruCache<K, V, S> {
            /// Returns the value of a key, and makes its entry the newest. Cost: `O(1)` expected.
            #[inline]
            pub fn get<Q: Hash + Eq + ?Sized>(&mut self, k: &Q) -> Option<&V>
            where
                K: Borrow<Q>,
            {
                self.map.get(&Borrowed(k)).map(|v| &*v)
            }

            /// Lends the value of a key for writing, and makes its entry the newest. Cost: `O(1)` expected.
            #[inline]
            pub fn get_mut<Q: Hash + Eq + ?Sized>(&mut self, k: &Q) -> Option<&mut V>
            where
                K: Borrow<Q>,
            {
                self.map.get(&Borrowed(k))
            }

            /// Returns the value of a key. The order stays. Cost: `O(1)` expected.
            #[inline]
            pub fn peek<Q: Hash + Eq + ?Sized>(&self, k: &Q) -> Option<&V>
            where
                K: Borrow<Q>,
            {
                self.map.peek(&Borrowed(k))
            }

            /// Lends the value of a key for writing. The order stays. Cost: `O(1)` expected.
            #[inline]
            pub fn peek_mut<Q: Hash + Eq + ?Sized>(&mut self, k: &Q) -> Option<&mut V>
            where
                K: Borrow<Q>,
            {
                self.map.peek_mut(&Borrowed(k))
            }

            /// Makes the entry of a key the newest. Returns whether the key is there. Cost: `O(1)` expected.
            #[inline]
            pub fn $promote<Q: Hash + Eq + ?Sized>(&mut self, k: &Q) -> bool
            where
                K: Borrow<Q>,
            {
                self.map.promote(&Borrowed(k))
            }

            /// Removes a key, and returns its value. Cost: `O(1)` expected.
            #[inline]
            pub fn $pop<Q: Hash + Eq + ?Sized>(&mut self, k: &Q) -> Option<V>
            where
                K: Borrow<Q>,
            {
                self.map.remove(&Borrowed(k))
            }

            /// Removes a key, and returns the stored key and its value. Cost: `O(1)` expected.
            #[inline]
            pub fn $pop_entry<Q: Hash + Eq + ?Sized>(&mut self, k: &Q) -> Option<(K, V)>
            where
                K: Borrow<Q>,
            {
                self.map.remove_entry(&Borrowed(k))
            }

            /// Removes the oldest entry, and returns it.
            #[inline]
            pub fn $pop_lru(&mut self) -> Option<(K, V)> {
                self.map.pop_oldest()
            }
        }

        impl<K: Hash + Eq + Clone, V: Clone, S: BuildHasher + Clone> Clone for LruCache<K, V, S> {
            /// Clones the entries in order, and the hasher, into a table of the same size.
            fn clone(&self) -> Self {
                LruCache { map: $crate::doors::clone_map(&self.map), cap: self.cap }
            }
        }

        impl<'a, K, V, S> IntoIterator for &'a LruCache<K, V, S> {
            type Item = (&'a K, &'a V);
            type IntoIter = Iter<'a, K, V>;

            fn into_iter(self) -> Iter<'a, K, V> {
                self.iter()
            }
        }

        impl<'a, K, V, S> IntoIterator for &'a mut LruCache<K, V, S> {
            type Item = (&'a K, &'a mut V);
            type IntoIter = IterMut<'a, K, V>;

            fn into_iter(self) -> IterMut<'a, K, V> {
                self.iter_mut()
            }
        }

        impl<K, V, S> IntoIterator for LruCache<K, V, S> {
            type Item = (K, V);
            type IntoIter = IntoIter<K, V>;

            fn into_iter(self) -> IntoIter<K, V> {
                IntoIter { entries: Taken(self.map.entries) }
            }
        }
    };
}
pub(crate) use shared_calls;
