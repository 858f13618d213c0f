// Erased from crates/lru_limits/src/limiters/by_memory_usage.rt: do not edit.
#[allow(unused_imports)]
use crate::rattle_std::prelude::*;

use crate::erased::lru_limits::admission::Admission;
use crate::erased::lru_limits::limiter::Limiter;

/// Limits the bytes of the table. Contracts represent the limiter by its limit.
///
/// `ByMemoryUsage` permits a growth if and only if the new table is within the limit. If `ByMemoryUsage` refuses a
/// growth, an insert evicts the oldest entries. The limiter does not count the memory that keys and values own, or the
/// old table, which exists during a growth.
///
/// Cost: `O(1)` for each callback, and no memory.
#[derive(Clone, Copy, Debug)]
#[repr(transparent)]
pub struct ByMemoryUsage {
    max_bytes: usize,
}

impl ByMemoryUsage {
    /// Makes a limiter that permits tables of at most `max_bytes` bytes.
    pub const fn new(max_bytes: usize) -> ByMemoryUsage {
        ByMemoryUsage { max_bytes }
    }

    /// Returns the limit.
    pub const fn max_memory_usage(&self) -> usize {
        self.max_bytes
    }
}

impl From<usize> for ByMemoryUsage {
    fn from(max_bytes: usize) -> ByMemoryUsage {
        ByMemoryUsage::new(max_bytes)
    }
}

impl<K, V> Limiter<K, V> for ByMemoryUsage {
    type LinkType = u32;

    #[inline]
    fn is_over_the_limit(&self, _length: usize) -> bool {
        false
    }

    #[inline]
    fn on_removed(&mut self, _key: &mut K, _value: &mut V) {}

    #[inline]
    fn on_cleared(&mut self) {}

    #[inline]
    fn on_grow(&mut self, new_memory_usage: usize) -> bool {
        new_memory_usage <= self.max_bytes
    }
}

impl<K, V> Admission<K, V> for ByMemoryUsage {
    #[inline]
    fn accepts(&self, _length: usize, _key: &K, _value: &V) -> bool {
        true
    }

    #[inline]
    fn admit(&mut self, _length: usize, _key: &K, _value: &V) -> bool {
        true
    }

    #[inline]
    fn accepts_in_place(&self, _length: usize, _key: &K, _old_value: &V, _new_value: &V) -> bool {
        true
    }

    #[inline]
    fn admit_in_place(&mut self, _length: usize, _key: &K, _old_value: &V, _new_value: &V) -> bool {
        true
    }
}
