//! How an ordered map is made.

use super::OrderedMap;
use crate::ReserveError;
use crate::erased::lru_caches as proved;
use crate::rattle_std::alloc::Global;
use core::hash::{BuildHasher, Hash};

#[cfg(feature = "runtime-rng")]
impl<K: Eq + Hash, V> OrderedMap<K, V> {
    /// Makes an empty map, whose hasher has random seeds. Cost: `O(1)`, and no memory.
    ///
    /// ```
    /// # use jeerdurian::caches::OrderedMap;
    /// let map: OrderedMap<u64, u64> = OrderedMap::new();
    /// assert!(map.is_empty());
    /// ```
    pub fn new() -> Self {
        Self::with_hasher(crate::RandomState::default())
    }

    /// Makes an empty map as `new` does, and reserves growth for this many entries. Cost: `O(buckets)`.
    ///
    /// # Errors
    ///
    /// No table is large enough, or memory ran out.
    ///
    /// ```
    /// # use jeerdurian::caches::OrderedMap;
    /// # fn main() -> Result<(), Box<dyn std::error::Error>> {
    /// let mut map = OrderedMap::with_capacity(100)?;
    /// map.insert("a", 1)?;
    /// # Ok(())
    /// # }
    /// ```
    pub fn with_capacity(capacity: usize) -> Result<Self, ReserveError> {
        Self::with_capacity_and_hasher(capacity, crate::RandomState::default())
    }
}

impl<K: Eq + Hash, V, S: BuildHasher> OrderedMap<K, V, S> {
    /// Makes an empty map with this hasher. Cost: `O(1)`, and no memory.
    ///
    /// ```
    /// # use jeerdurian::caches::OrderedMap;
    /// use std::hash::RandomState;
    ///
    /// let map: OrderedMap<u64, u64, RandomState> = OrderedMap::with_hasher(RandomState::new());
    /// assert!(map.is_empty());
    /// ```
    pub fn with_hasher(hasher: S) -> Self {
        OrderedMap { map: proved::OrderedMap::with_hasher(Global, hasher) }
    }

    /// Makes an empty map as [`with_capacity`](OrderedMap::with_capacity) does, with this hasher. Cost: `O(buckets)`.
    ///
    /// # Errors
    ///
    /// As for `with_capacity`.
    ///
    /// ```
    /// # use jeerdurian::{ReserveError, caches::OrderedMap};
    /// use std::hash::RandomState;
    ///
    /// let map: Result<OrderedMap<u64, u64, _>, _> =
    ///     OrderedMap::with_capacity_and_hasher(usize::MAX, RandomState::new());
    /// assert_eq!(map.err(), Some(ReserveError::TooLarge));
    /// ```
    pub fn with_capacity_and_hasher(capacity: usize, hasher: S) -> Result<Self, ReserveError> {
        let mut map = Self::with_hasher(hasher);
        map.try_reserve(capacity)?;
        Ok(map)
    }
}
