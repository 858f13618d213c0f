//! The entries of a cache: of a given key, or of a key that is only looked up (`raw`).

use super::LruCache;
use crate::debug::shows;
use crate::doors::{Map, Table, bucket_or_hash, hash_of, insert_absent};
use crate::keys::Borrowed;
use core::borrow::Borrow;
use core::fmt::{self, Debug, Formatter};
use core::hash::{BuildHasher, Hash};
use core::mem::replace;

impl<K: Eq + Hash, V, S: BuildHasher> LruCache<K, V, S> {
    /// Returns the entry of a key. The entry keeps its place, unless a call moves it. If the cache is above its
    /// capacity, first evicts the oldest entry. A vacant entry may be inserted beyond the capacity, by one.
    pub fn entry(&mut self, key: K) -> Entry<'_, K, V, S> {
        self.evict_above_capacity();
        match bucket_or_hash(&self.map, &key) {
            Ok(b) => Entry::Occupied(OccupiedEntry { key, entries: &mut self.map.entries, b }),
            Err(hash) => Entry::Vacant(VacantEntry { key, hash, map: &mut self.map }),
        }
    }

    /// Looks up an entry by a borrowed key or a hash. Evicts as [`entry`](Self::entry) does.
    ///
    /// These calls of `hashlink` are missing: `from_key_hashed_nocheck`; `and_modify`; `key_mut`, `into_key`,
    /// `get_key_value`, `get_key_value_mut`, `into_key_value`, `replace_key` and `replace_value`;
    /// `insert_hashed_nocheck` and `insert_with_hasher`.
    pub fn raw_entry_mut(&mut self) -> RawEntryBuilderMut<'_, K, V, S> {
        self.evict_above_capacity();
        RawEntryBuilderMut { map: &mut self.map }
    }
}

/// The entry of a key, or the place for it.
pub enum Entry<'a, K, V, S> {
    /// The key is there.
    Occupied(OccupiedEntry<'a, K, V>),
    /// The key is not there.
    Vacant(VacantEntry<'a, K, V, S>),
}

/// The entry of a key that is there.
pub struct OccupiedEntry<'a, K, V> {
    key: K,
    entries: &'a mut Table<K, V>,
    // The bucket of the entry, which no call on the entry changes.
    b: usize,
}

/// The place for the entry of a key that is not there.
pub struct VacantEntry<'a, K, V, S> {
    key: K,
    hash: u64,
    map: &'a mut Map<K, V, S>,
}

impl<'a, K: Eq + Hash, V, S: BuildHasher> Entry<'a, K, V, S> {
    /// Makes the entry the newest, and lends its value. If the key is absent, first inserts this value.
    pub fn or_insert(self, default: V) -> &'a mut V {
        self.or_insert_with(|| default)
    }

    /// Makes the entry the newest, and lends its value. If the key is absent, first inserts what `default` returns.
    pub fn or_insert_with<F: FnOnce() -> V>(self, default: F) -> &'a mut V {
        match self {
            Entry::Occupied(entry) => entry.into_newest().1,
            Entry::Vacant(entry) => entry.insert(default()),
        }
    }
}

impl<K, V, S> Entry<'_, K, V, S> {
    /// Returns the stored key, or the given key if it is absent.
    pub fn key(&self) -> &K {
        match self {
            Entry::Occupied(entry) => entry.key(),
            Entry::Vacant(entry) => entry.key(),
        }
    }

    /// Changes the value, if the key is there. The order stays.
    pub fn and_modify<F: FnOnce(&mut V)>(mut self, f: F) -> Self {
        if let Entry::Occupied(entry) = &mut self {
            f(entry.get_mut());
        }
        self
    }
}

// The calls that both kinds of occupied entries have.
macro_rules! occupied {
    ($name:ident) => {
        impl<'a, K, V> $name<'a, K, V> {
            /// Returns the stored key.
            pub fn key(&self) -> &K {
                self.entries.pair(self.b).0
            }

            /// Returns the value.
            pub fn get(&self) -> &V {
                self.entries.pair(self.b).1
            }

            /// Lends the value for writing.
            pub fn get_mut(&mut self) -> &mut V {
                self.entries.pair_mut(self.b).1
            }

            /// Lends the value for writing, as long as the cache is borrowed.
            pub fn into_mut(self) -> &'a mut V {
                self.entries.pair_mut(self.b).1
            }

            fn into_newest(mut self) -> (&'a mut K, &'a mut V) {
                self.to_back();
                self.entries.entry_mut(self.b)
            }

            /// Makes the entry the newest.
            pub fn to_back(&mut self) {
                self.entries.promote(self.b);
            }

            /// Makes the entry the oldest.
            pub fn to_front(&mut self) {
                self.entries.demote(self.b);
            }

            /// Removes the entry, and returns its value.
            pub fn remove(self) -> V {
                // Not `.1`, so that the value is dropped, too, if the drop of the key panics.
                let (_, value) = self.entries.take(self.b);
                value
            }

            /// Removes the entry, and returns it.
            pub fn remove_entry(self) -> (K, V) {
                self.entries.take(self.b)
            }
        }

        impl<K: Debug, V: Debug> Debug for $name<'_, K, V> {
            fn fmt(&self, f: &mut Formatter<'_>) -> fmt::Result {
                f.debug_struct(stringify!($name)).field("key", self.key()).field("value", self.get()).finish()
            }
        }
    };
}

occupied!(OccupiedEntry);
occupied!(RawOccupiedEntryMut);

impl<K, V> OccupiedEntry<'_, K, V> {
    /// Replaces the value, and makes the entry the newest. Returns the old value.
    pub fn insert(&mut self, value: V) -> V {
        self.to_back();
        replace(self.get_mut(), value)
    }

    /// Replaces the stored key by the given key, and replaces the value. Makes the entry the newest. Returns the old
    /// entry.
    pub fn insert_entry(mut self, value: V) -> (K, V) {
        self.to_back();
        self.replace_entry(value)
    }

    /// Replaces the stored key by the given key, and replaces the value. The order stays. Returns the old entry.
    pub fn replace_entry(mut self, value: V) -> (K, V) {
        let old = replace(self.get_mut(), value);
        (self.replace_key(), old)
    }

    /// Replaces the stored key by the given key. The order stays. Returns the old key.
    pub fn replace_key(self) -> K {
        replace(self.entries.entry_mut(self.b).0, self.key)
    }
}

impl<K, V, S> VacantEntry<'_, K, V, S> {
    /// Returns the given key.
    pub fn key(&self) -> &K {
        &self.key
    }

    /// Returns the given key, and drops the handle.
    pub fn into_key(self) -> K {
        self.key
    }
}

impl<'a, K: Eq + Hash, V, S: BuildHasher> VacantEntry<'a, K, V, S> {
    /// Inserts the key with a value, as the newest entry.
    pub fn insert(self, value: V) -> &'a mut V {
        insert_absent(self.map, self.hash, self.key, value).1
    }
}

impl<K: Debug, V: Debug, S> Debug for Entry<'_, K, V, S> {
    fn fmt(&self, f: &mut Formatter<'_>) -> fmt::Result {
        match self {
            Entry::Occupied(entry) => f.debug_tuple("Entry").field(entry).finish(),
            Entry::Vacant(entry) => f.debug_tuple("Entry").field(entry).finish(),
        }
    }
}

impl<K: Debug, V, S> Debug for VacantEntry<'_, K, V, S> {
    fn fmt(&self, f: &mut Formatter<'_>) -> fmt::Result {
        f.debug_tuple("VacantEntry").field(&self.key).finish()
    }
}

/// Looks up an entry for writing.
pub struct RawEntryBuilderMut<'a, K, V, S> {
    map: &'a mut Map<K, V, S>,
}

/// An entry that was looked up, or the place for it.
pub enum RawEntryMut<'a, K, V, S> {
    /// The entry is there.
    Occupied(RawOccupiedEntryMut<'a, K, V>),
    /// The entry is not there.
    Vacant(RawVacantEntryMut<'a, K, V, S>),
}

/// An entry that was looked up and is there.
pub struct RawOccupiedEntryMut<'a, K, V> {
    entries: &'a mut Table<K, V>,
    b: usize,
}

/// The place for an entry that was looked up and is absent.
pub struct RawVacantEntryMut<'a, K, V, S> {
    map: &'a mut Map<K, V, S>,
}

impl<'a, K: Eq + Hash, V, S: BuildHasher> RawEntryBuilderMut<'a, K, V, S> {
    /// Looks up the entry of a key.
    pub fn from_key<Q: Hash + Eq + ?Sized>(self, k: &Q) -> RawEntryMut<'a, K, V, S>
    where
        K: Borrow<Q>,
    {
        let hash = hash_of(self.map, &Borrowed(k));
        self.from_hash(hash, |key| k == key.borrow())
    }

    /// Looks up the entry with this hash that `is_match` accepts. The hash of a key is what the cache's hasher builds
    /// for it.
    ///
    /// ```
    /// use jeerdurian::hashlink::{LruCache, lru_cache::RawEntryMut};
    /// use std::hash::{BuildHasher, Hash, Hasher, RandomState};
    ///
    /// let state = RandomState::new();
    /// let mut cache = LruCache::with_hasher(2, state.clone());
    /// cache.insert("a", 1);
    /// let mut hasher = state.build_hasher();
    /// "a".hash(&mut hasher);
    /// let entry = cache.raw_entry_mut().from_hash(hasher.finish(), |key| *key == "a");
    /// assert!(matches!(entry, RawEntryMut::Occupied(_)));
    /// ```
    pub fn from_hash(self, hash: u64, mut is_match: impl FnMut(&K) -> bool) -> RawEntryMut<'a, K, V, S> {
        match self.map.entries.find_by(hash, |key, _| is_match(key)) {
            Some(b) => RawEntryMut::Occupied(RawOccupiedEntryMut { entries: &mut self.map.entries, b }),
            None => RawEntryMut::Vacant(RawVacantEntryMut { map: self.map }),
        }
    }
}

impl<'a, K: Eq + Hash, V, S: BuildHasher> RawEntryMut<'a, K, V, S> {
    /// Makes the entry the newest, and lends it. If it is absent, first inserts this entry.
    pub fn or_insert(self, default_key: K, default_val: V) -> (&'a mut K, &'a mut V) {
        match self {
            RawEntryMut::Occupied(entry) => entry.into_newest(),
            RawEntryMut::Vacant(entry) => entry.insert(default_key, default_val),
        }
    }

    /// Makes the entry the newest, and lends it. If it is absent, first inserts what `default` returns.
    pub fn or_insert_with<F: FnOnce() -> (K, V)>(self, default: F) -> (&'a mut K, &'a mut V) {
        match self {
            RawEntryMut::Occupied(entry) => entry.into_newest(),
            RawEntryMut::Vacant(entry) => {
                let (key, value) = default();
                entry.insert(key, value)
            }
        }
    }
}

impl<'a, K: Eq + Hash, V, S: BuildHasher> RawVacantEntryMut<'a, K, V, S> {
    /// Inserts an entry, as the newest.
    pub fn insert(self, key: K, value: V) -> (&'a mut K, &'a mut V) {
        let hash = hash_of(self.map, &key);
        insert_absent(self.map, hash, key, value)
    }
}

shows! {
    [K, V, S] RawEntryBuilderMut: RawEntryBuilderMut<'_, K, V, S>, len: |it| it.map.entries.len();
    [K, V, S] RawVacantEntryMut: RawVacantEntryMut<'_, K, V, S>, len: |it| it.map.entries.len();
}

impl<K: Debug, V: Debug, S> Debug for RawEntryMut<'_, K, V, S> {
    fn fmt(&self, f: &mut Formatter<'_>) -> fmt::Result {
        match self {
            RawEntryMut::Occupied(entry) => f.debug_tuple("RawEntryMut").field(entry).finish(),
            RawEntryMut::Vacant(entry) => f.debug_tuple("RawEntryMut").field(entry).finish(),
        }
    }
}
