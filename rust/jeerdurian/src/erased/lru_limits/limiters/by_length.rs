// Erased from crates/lru_limits/src/limiters/by_length.rt: do not edit.
#[allow(unused_imports)]
use crate::rattle_std::prelude::*;

use crate::erased::lru_limits::admission::Admission;
use crate::erased::lru_limits::limiter::Limiter;

/// Limits the number of entries. Contracts represent the limiter by its limit.
///
/// A map under `ByLength` has at most `max_length` entries after each call. After the limit was lowered through
/// `limiter_mut`, the map may have more entries until the next `trim`, or until `ByLength` accepts an insert or an
/// update. `ByLength` rejects an entry only if `max_length` is 0.
///
/// Cost: `O(1)` for each callback, and no memory.
#[derive(Clone, Copy, Debug)]
#[repr(transparent)]
pub struct ByLength {
    max_length: u32,
}

impl ByLength {
    /// Makes a limiter with a limit of `max_length` entries.
    pub const fn new(max_length: u32) -> ByLength {
        ByLength { max_length }
    }

    /// Returns the limit.
    pub const fn max_length(&self) -> u32 {
        self.max_length
    }
}

impl From<u32> for ByLength {
    fn from(max_length: u32) -> ByLength {
        ByLength::new(max_length)
    }
}

impl<K, V> Limiter<K, V> for ByLength {
    type LinkType = u32;

    #[inline]
    fn is_over_the_limit(&self, length: usize) -> bool {
        length > self.max_length as usize
    }

    #[inline]
    fn on_removed(&mut self, _key: &mut K, _value: &mut V) {}

    #[inline]
    fn on_cleared(&mut self) {}

    #[inline]
    fn on_grow(&mut self, _new_memory_usage: usize) -> bool {
        true
    }
}

impl<K, V> Admission<K, V> for ByLength {
    #[inline]
    fn accepts(&self, _length: usize, _key: &K, _value: &V) -> bool {
        self.max_length > 0
    }

    #[inline]
    fn admit(&mut self, _length: usize, _key: &K, _value: &V) -> bool {
        self.max_length > 0
    }

    #[inline]
    fn accepts_in_place(&self, _length: usize, _key: &K, _old_value: &V, _new_value: &V) -> bool {
        true
    }

    #[inline]
    fn admit_in_place(&mut self, _length: usize, _key: &K, _old_value: &V, _new_value: &V) -> bool {
        true
    }
}
