// Erased from crates/lru_limits/src/limiters/unlimited.rt: do not edit.
#[allow(unused_imports)]
use crate::rattle_std::prelude::*;

use crate::erased::lru_limits::admission::Admission;
use crate::erased::lru_limits::limiter::Limiter;

/// Limits nothing. A map under `Unlimited` is an ordered hash map.
#[derive(Clone, Copy, Debug, Default)]
pub struct Unlimited;

impl<K, V> Limiter<K, V> for Unlimited {
    type LinkType = usize;

    #[inline]
    fn is_over_the_limit(&self, _length: usize) -> bool {
        false
    }

    #[inline]
    fn on_removed(&mut self, _key: &mut K, _value: &mut V) {}

    #[inline]
    fn on_cleared(&mut self) {}

    #[inline]
    fn on_grow(&mut self, _new_memory_usage: usize) -> bool {
        true
    }
}

impl<K, V> Admission<K, V> for Unlimited {
    #[inline]
    fn accepts(&self, _length: usize, _key: &K, _value: &V) -> bool {
        true
    }

    #[inline]
    fn admit(&mut self, _length: usize, _key: &K, _value: &V) -> bool {
        true
    }

    #[inline]
    fn accepts_in_place(&self, _length: usize, _key: &K, _old_value: &V, _new_value: &V) -> bool {
        true
    }

    #[inline]
    fn admit_in_place(&mut self, _length: usize, _key: &K, _old_value: &V, _new_value: &V) -> bool {
        true
    }
}
