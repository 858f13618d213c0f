// Erased from crates/lru_tenants/src/counting.rt: do not edit.
#[allow(unused_imports)]
use crate::rattle_std::prelude::*;

use crate::erased::lru_caches::Counts;
use crate::erased::lru_limits::{Admission, Budgeted, Limiter, Summing};

/// Limits as the field `limiter` does, and stores the counts of a map.
///
/// In a `TenantCache` with this limiter, call `get_counted`, `put_counted` and `get_or_put_counted`. No other call
/// counts.
#[derive(Clone, Copy, Debug)]
pub struct Counting<L> {
    /// The limiter, which decides what the map accepts and evicts.
    pub limiter: L,
    /// What the calls of the map counted.
    pub counts: Counts,
}

impl<K, V, L: Limiter<K, V>> Limiter<K, V> for Counting<L> {
    type LinkType = L::LinkType;

    #[inline]
    fn is_over_the_limit(&self, length: usize) -> bool {
        self.limiter.is_over_the_limit(length)
    }

    #[inline]
    fn on_removed(&mut self, key: &mut K, value: &mut V) {
        self.limiter.on_removed(key, value);
    }

    #[inline]
    fn on_cleared(&mut self) {
        self.limiter.on_cleared();
    }

    #[inline]
    fn on_grow(&mut self, new_memory_usage: usize) -> bool {
        self.limiter.on_grow(new_memory_usage)
    }
}

impl<K, V, L: Admission<K, V>> Admission<K, V> for Counting<L> {
    #[inline]
    fn accepts(&self, length: usize, key: &K, value: &V) -> bool {
        self.limiter.accepts(length, key, value)
    }

    #[inline]
    fn admit(&mut self, length: usize, key: &K, value: &V) -> bool {
        self.limiter.admit(length, key, value)
    }

    #[inline]
    fn accepts_in_place(&self, length: usize, key: &K, old_value: &V, new_value: &V) -> bool {
        self.limiter.accepts_in_place(length, key, old_value, new_value)
    }

    #[inline]
    fn admit_in_place(&mut self, length: usize, key: &K, old_value: &V, new_value: &V) -> bool {
        self.limiter.admit_in_place(length, key, old_value, new_value)
    }
}

impl<K, V, L: Summing<K, V>> Summing<K, V> for Counting<L> {
    #[inline]
    fn cost_of(key: &K, value: &V) -> u64 {
        L::cost_of(key, value)
    }

    #[inline]
    fn account(&self) -> u64 {
        self.limiter.account()
    }
}

impl<K, V, L: Budgeted<K, V>> Budgeted<K, V> for Counting<L> {
    #[inline]
    fn with_budget(budget: u64) -> Counting<L> {
        Counting { limiter: L::with_budget(budget), counts: Counts::default() }
    }

    #[inline]
    fn budget(&self) -> u64 {
        self.limiter.budget()
    }

    #[inline]
    fn set_budget(&mut self, budget: u64) {
        self.limiter.set_budget(budget);
    }
}
