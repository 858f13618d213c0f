// Erased from crates/lru_limits/src/limiters/storing.rt: do not edit.
#[allow(unused_imports)]
use crate::rattle_std::prelude::*;

use crate::erased::lru_limits::admission::Admission;
use crate::erased::lru_limits::limiter::Limiter;

/// Wraps a limiter. The wrapper accepts each entry unchanged, and every new value of a stored key.
///
/// Put your [`Limiter`] into a map as `Storing(limiter)`, which implements [`Admission`]. `map.limiter().0` is your
/// limiter.
#[derive(Clone, Copy, Debug, Default)]
pub struct Storing<L>(pub L);

impl<K, V, L: Limiter<K, V>> Limiter<K, V> for Storing<L> {
    type LinkType = L::LinkType;

    #[inline]
    fn is_over_the_limit(&self, length: usize) -> bool {
        self.0.is_over_the_limit(length)
    }

    #[inline]
    fn on_removed(&mut self, key: &mut K, value: &mut V) {
        self.0.on_removed(key, value);
    }

    #[inline]
    fn on_cleared(&mut self) {
        self.0.on_cleared();
    }

    #[inline]
    fn on_grow(&mut self, new_memory_usage: usize) -> bool {
        self.0.on_grow(new_memory_usage)
    }
}

impl<K, V, L: Limiter<K, V>> Admission<K, V> for Storing<L> {
    #[inline]
    fn accepts(&self, _length: usize, _key: &K, _value: &V) -> bool {
        true
    }

    #[inline]
    fn admit(&mut self, _length: usize, _key: &K, _value: &V) -> bool {
        true
    }

    #[inline]
    fn accepts_in_place(&self, _length: usize, _key: &K, _old_value: &V, _new_value: &V) -> bool {
        true
    }

    #[inline]
    fn admit_in_place(&mut self, _length: usize, _key: &K, _old_value: &V, _new_value: &V) -> bool {
        true
    }
}
