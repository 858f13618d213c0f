// Erased from crates/lru_limits/src/accounts/by_bytes.rt: do not edit.
#[allow(unused_imports)]
use crate::rattle_std::prelude::*;

use crate::erased::lru_limits::accounts::{OwnedBytes, Summing, sum_with};
use crate::erased::lru_limits::admission::Admission;
use crate::erased::lru_limits::limiter::Limiter;

/// Limits the bytes of the table plus the bytes that the entries own. Contracts represent the limiter by its limit, the
/// bytes of the table, and the owned bytes.
///
/// `ByBytes` permits a table if the bytes of the table plus the owned bytes are within the limit. Let n be the limit
/// minus the bytes of the table, but at least 0. `ByBytes` rejects an entry or a new value if the entry alone owns more
/// than n bytes, or if the owned bytes would pass `u64::MAX`. Under the premises of `calls_keep_the_bytes` of
/// `lru_model`, the table plus the owned bytes are within the limit after each call of the map. While the table grows,
/// the old table also exists, but is not counted.
///
/// `shrink_to_fit` does not notify the limiter. To make the limiter count the smaller table, call
/// `map.set_limiter(map.limiter().with_table(map.memory_usage() as u64))`.
///
/// Cost: each callback reads the owned bytes of its keys and values at most twice, and takes no memory.
#[derive(Clone, Copy, Debug)]
pub struct ByBytes {
    limit: u64,
    owned: u64,
    table: u64,
}

impl ByBytes {
    /// Makes a limiter for an empty map without a table.
    pub const fn new(limit: u64) -> ByBytes {
        ByBytes { limit, owned: 0, table: 0 }
    }

    /// Returns the same limiter with another limit.
    pub const fn with_limit(&self, limit: u64) -> ByBytes {
        ByBytes { limit, owned: self.owned, table: self.table }
    }

    /// Returns the same limiter with another number of bytes for the table.
    pub const fn with_table(&self, table: u64) -> ByBytes {
        ByBytes { limit: self.limit, owned: self.owned, table }
    }

    /// Returns the limit.
    pub const fn limit(&self) -> u64 {
        self.limit
    }

    /// Returns the bytes that the entries own.
    pub const fn owned(&self) -> u64 {
        self.owned
    }

    /// Returns the bytes of the last table that the limiter permitted.
    pub const fn table(&self) -> u64 {
        self.table
    }

    #[inline]
    const fn left(&self) -> u64 {
        self.limit.saturating_sub(self.table)
    }
}

#[inline]
fn bytes_of_pair<K: OwnedBytes, V: OwnedBytes>(key: &K, value: &V) -> u64 {
    key.owned_bytes().saturating_add(value.owned_bytes())
}

impl<K: OwnedBytes, V: OwnedBytes> Limiter<K, V> for ByBytes {
    type LinkType = u32;

    #[inline]
    fn is_over_the_limit(&self, _length: usize) -> bool {
        self.owned > self.left()
    }

    #[inline]
    fn on_removed(&mut self, key: &mut K, value: &mut V) {
        self.owned = self.owned.saturating_sub(bytes_of_pair(&*key, &*value));
    }

    #[inline]
    fn on_cleared(&mut self) {
        self.owned = 0;
    }

    #[inline]
    fn on_grow(&mut self, new_memory_usage: usize) -> bool {
        let bytes = new_memory_usage as u64;
        let fits = self.owned <= self.limit && bytes <= self.limit - self.owned;
        if fits {
            self.table = bytes;
        }
        fits
    }
}

impl<K: OwnedBytes, V: OwnedBytes> Summing<K, V> for ByBytes {
    #[inline]
    fn cost_of(key: &K, value: &V) -> u64 {
        bytes_of_pair(key, value)
    }

    #[inline]
    fn account(&self) -> u64 {
        self.owned
    }
}

impl<K: OwnedBytes, V: OwnedBytes> Admission<K, V> for ByBytes {
    #[inline]
    fn accepts(&self, _length: usize, key: &K, value: &V) -> bool {
        sum_with(self.left(), self.owned, bytes_of_pair(key, value)).is_some()
    }

    #[inline]
    fn admit(&mut self, _length: usize, key: &K, value: &V) -> bool {
        match sum_with(self.left(), self.owned, bytes_of_pair(key, value)) {
            Some(sum) => {
                self.owned = sum;
                true
            }
            None => false,
        }
    }

    #[inline]
    fn accepts_in_place(&self, _length: usize, key: &K, old_value: &V, new_value: &V) -> bool {
        let others = self.owned.saturating_sub(bytes_of_pair(key, old_value));
        sum_with(self.left(), others, bytes_of_pair(key, new_value)).is_some()
    }

    #[inline]
    fn admit_in_place(&mut self, _length: usize, key: &K, old_value: &V, new_value: &V) -> bool {
        let others = self.owned.saturating_sub(bytes_of_pair(key, old_value));
        match sum_with(self.left(), others, bytes_of_pair(key, new_value)) {
            Some(sum) => {
                self.owned = sum;
                true
            }
            None => false,
        }
    }
}
