//! `LruCache` with the API of the crate `hashlink` 0.8, over the map that is inside [`LruMap`](crate::LruMap).
//!
//! In Cargo.toml, `hashlink = { package = "jeerdurian-hashlink", path = ".." }` replaces `hashlink`, for a program that
//! uses only its `LruCache`. The front of a cache is its oldest entry, and the back its newest.
//!
//! ```
//! use jeerdurian::hashlink::LruCache;
//!
//! let mut cache = LruCache::new(2);
//! cache.insert("a", 1);
//! cache.insert("b", 2);
//! *cache.entry("a").or_insert(0) += 10; // "a" is now the newest
//! cache.insert("c", 3);
//! assert!(cache.iter().eq([(&"a", &11), (&"c", &3)]));
//! ```
//!
//! A value moves when the table grows, so unsafe code must not keep its address. `hashlink` 0.8.0 accepts a program
//! that shares a `Cell` between threads. Here the program does not compile:
//!
//! ```compile_fail,E0277
//! let mut cache = jeerdurian::hashlink::LruCache::new(1);
//! cache.insert(1, std::cell::Cell::new(1));
//! let entries = cache.iter();
//! std::thread::scope(|scope| scope.spawn(move || entries.for_each(|(_, cell)| cell.set(2))).join());
//! ```

use crate::doors::{Map, OldestFirst, Table, Taken, bucket_or_hash, insert_absent, new_map, replace, shared_calls};
use crate::erased::ordered_table::Walk;
use crate::iter::{WalkMut, passes_on};
use crate::keys::Borrowed;
use crate::rattle_std::alloc::Global;
use core::borrow::Borrow;
use core::fmt::{self, Debug, Formatter};
use core::hash::{BuildHasher, Hash};

mod entry;

/// The types of the module `lru_cache` of `hashlink`.
pub mod lru_cache {
    pub use super::entry::*;
    pub use super::{Drain, IntoIter, Iter, IterMut, LruCache};
}
#[doc(hidden)]
pub use lru_cache as linked_hash_map;

/// The default hasher of a cache. Its seeds are random.
pub type DefaultHashBuilder = crate::RandomState;

/// A cache of at most `capacity` entries. A new entry evicts the oldest entry: the least recently used.
///
/// An [`entry`](Self::entry) may be inserted beyond the capacity, by one. Then the next insert, or the next call of
/// `entry` or `raw_entry_mut`, evicts at most one entry.
pub struct LruCache<K, V, S = DefaultHashBuilder> {
    map: Map<K, V, S>,
    cap: usize,
}

type Ordered<T> = OldestFirst<T>;
shared_calls!("oldest", OldestFirst, contains_key, remove, remove_entry, remove_lru);

#[cfg(feature = "runtime-rng")]
impl<K: Eq + Hash, V> LruCache<K, V> {
    /// Makes an empty cache of this capacity. It takes no memory.
    pub fn new(capacity: usize) -> Self {
        Self::with_hasher(capacity, DefaultHashBuilder::default())
    }

    /// Makes an empty cache that never evicts an entry. It takes no memory.
    pub fn new_unbounded() -> Self {
        Self::new(usize::MAX)
    }
}

impl<K, V, S> LruCache<K, V, S> {
    /// Returns the capacity.
    pub fn capacity(&self) -> usize {
        self.cap
    }

    /// Drops all entries, the newest first. The table keeps its size.
    pub fn clear(&mut self) {
        self.drain();
    }

    /// Takes the entries out, the oldest first. Dropping the iterator drops the rest. If the iterator is forgotten, the
    /// rest leaks, and the cache is empty and has no table.
    pub fn drain(&mut self) -> Drain<'_, K, V> {
        let entries = Taken(core::mem::replace(&mut self.map.entries, Table::new(Global)));
        Drain { entries, table: &mut self.map.entries }
    }
}

impl<K: Eq + Hash, V, S: BuildHasher> LruCache<K, V, S> {
    /// Makes an empty cache of this capacity with this hasher. It takes no memory.
    pub fn with_hasher(capacity: usize, hash_builder: S) -> Self {
        LruCache { map: new_map(hash_builder), cap: capacity }
    }

    /// Inserts a key with a value, as the newest. If the key was there, returns the old value; the stored key stays.
    /// Then, if the cache is above its capacity, evicts the oldest entry. Cost: `O(1)` expected, amortised.
    pub fn insert(&mut self, k: K, v: V) -> Option<V> {
        match bucket_or_hash(&self.map, &k) {
            Ok(b) => {
                let old = replace(&mut self.map, b, v);
                drop(k);
                self.evict_above_capacity();
                return Some(old);
            }
            Err(_) if self.cap == 0 && self.is_empty() => drop((k, v)),
            Err(hash) => {
                // The oldest entry is removed first, so that the table need not grow for the new entry.
                let _evicted = if self.len() >= self.cap { self.remove_lru() } else { None };
                insert_absent(&mut self.map, hash, k, v);
            }
        }
        None
    }

    fn evict_above_capacity(&mut self) {
        if self.len() > self.cap {
            self.remove_lru();
        }
    }

    /// Sets the capacity. The oldest entries above it are dropped.
    pub fn set_capacity(&mut self, capacity: usize) {
        while self.len() > capacity {
            self.remove_lru();
        }
        self.cap = capacity;
    }
}

impl<K: Eq + Hash, V, S: BuildHasher> Extend<(K, V)> for LruCache<K, V, S> {
    fn extend<I: IntoIterator<Item = (K, V)>>(&mut self, iter: I) {
        iter.into_iter().for_each(|(k, v)| drop(self.insert(k, v)));
    }
}

/// An iterator that takes the entries out of a cache, the oldest first.
pub struct Drain<'a, K, V> {
    entries: Taken<K, V>,
    // The cache's place for the table, which is put back when it is empty.
    table: &'a mut Table<K, V>,
}

impl<K, V> Drop for Drain<'_, K, V> {
    fn drop(&mut self) {
        self.entries.by_ref().rev().for_each(drop);
        core::mem::swap(self.table, &mut self.entries.0);
    }
}

passes_on!(['a, K, V] Drain<'a, K, V>, (K, V), entries);

impl<K: Debug, V: Debug, S> Debug for LruCache<K, V, S> {
    /// Shows the entries, the newest first.
    fn fmt(&self, f: &mut Formatter<'_>) -> fmt::Result {
        f.debug_map().entries(self.map.entries.iter()).finish()
    }
}

// The `Debug` of an iterator shows what is left.
macro_rules! shows {
    ($($name:ty: $field:ident;)*) => {$(
        impl<K: Debug, V: Debug> Debug for $name {
            fn fmt(&self, f: &mut Formatter<'_>) -> fmt::Result {
                self.$field.fmt(f)
            }
        }
    )*};
}
shows!(Iter<'_, K, V>: walk; IterMut<'_, K, V>: walk; IntoIter<K, V>: entries; Drain<'_, K, V>: entries;);
