// Erased from crates/lru_limits/src/accounts/by_weight.rt: do not edit.
#[allow(unused_imports)]
use crate::rattle_std::prelude::*;

use crate::erased::lru_limits::accounts::{Budgeted, Costed, Summing, sum_with};
use crate::erased::lru_limits::admission::Admission;
use crate::erased::lru_limits::limiter::Limiter;

/// Limits the sum of the costs of the entries. Contracts represent the limiter by its limit and its running total. The
/// cost of an entry is the cost of its key, plus the cost of its value, plus `OVERHEAD`, but at most `u64::MAX`.
///
/// `ByWeight` rejects an entry or a new value if the entry alone would cost more than the limit, or if the sum would
/// pass `u64::MAX`.
///
/// Cost: each callback reads the cost of its keys and values at most twice, and takes no memory.
#[derive(Clone, Copy, Debug)]
pub struct ByWeight<const OVERHEAD: u64> {
    limit: u64,
    cost: u64,
}

impl<const OVERHEAD: u64> ByWeight<OVERHEAD> {
    /// Makes a limiter with this limit.
    pub const fn new(limit: u64) -> ByWeight<OVERHEAD> {
        ByWeight { limit, cost: 0 }
    }

    /// Returns the same limiter with another limit. The sum stays.
    pub const fn with_limit(&self, limit: u64) -> ByWeight<OVERHEAD> {
        ByWeight { limit, cost: self.cost }
    }

    /// Returns the limit.
    pub const fn limit(&self) -> u64 {
        self.limit
    }

    /// Returns the sum of the costs.
    pub const fn cost(&self) -> u64 {
        self.cost
    }
}

#[inline]
fn cost_of_pair<K: Costed, V: Costed>(overhead: u64, key: &K, value: &V) -> u64 {
    key.cost().saturating_add(value.cost()).saturating_add(overhead)
}

impl<K: Costed, V: Costed, const OVERHEAD: u64> Limiter<K, V> for ByWeight<OVERHEAD> {
    type LinkType = usize;

    #[inline]
    fn is_over_the_limit(&self, _length: usize) -> bool {
        self.cost > self.limit
    }

    #[inline]
    fn on_removed(&mut self, key: &mut K, value: &mut V) {
        let cost = cost_of_pair(OVERHEAD, &*key, &*value);
        self.cost = self.cost.saturating_sub(cost);
    }

    #[inline]
    fn on_cleared(&mut self) {
        self.cost = 0;
    }

    #[inline]
    fn on_grow(&mut self, _new_memory_usage: usize) -> bool {
        true
    }
}

impl<K: Costed, V: Costed, const OVERHEAD: u64> Summing<K, V> for ByWeight<OVERHEAD> {
    #[inline]
    fn cost_of(key: &K, value: &V) -> u64 {
        cost_of_pair(OVERHEAD, key, value)
    }

    #[inline]
    fn account(&self) -> u64 {
        self.cost
    }
}

impl<K: Costed, V: Costed, const OVERHEAD: u64> Admission<K, V> for ByWeight<OVERHEAD> {
    #[inline]
    fn accepts(&self, _length: usize, key: &K, value: &V) -> bool {
        let cost = cost_of_pair(OVERHEAD, key, value);
        sum_with(self.limit, self.cost, cost).is_some()
    }

    #[inline]
    fn admit(&mut self, _length: usize, key: &K, value: &V) -> bool {
        match sum_with(self.limit, self.cost, cost_of_pair(OVERHEAD, key, value)) {
            Some(sum) => {
                self.cost = sum;
                true
            }
            None => false,
        }
    }

    #[inline]
    fn accepts_in_place(&self, _length: usize, key: &K, old_value: &V, new_value: &V) -> bool {
        let old_cost = cost_of_pair(OVERHEAD, key, old_value);
        let new_cost = cost_of_pair(OVERHEAD, key, new_value);
        sum_with(self.limit, self.cost.saturating_sub(old_cost), new_cost).is_some()
    }

    #[inline]
    fn admit_in_place(&mut self, _length: usize, key: &K, old_value: &V, new_value: &V) -> bool {
        let old_cost = cost_of_pair(OVERHEAD, key, old_value);
        let new_cost = cost_of_pair(OVERHEAD, key, new_value);
        match sum_with(self.limit, self.cost.saturating_sub(old_cost), new_cost) {
            Some(sum) => {
                self.cost = sum;
                true
            }
            None => false,
        }
    }
}

impl<K: Costed, V: Costed, const OVERHEAD: u64> Budgeted<K, V> for ByWeight<OVERHEAD> {
    #[inline]
    fn with_budget(budget: u64) -> ByWeight<OVERHEAD> {
        ByWeight::new(budget)
    }

    #[inline]
    fn budget(&self) -> u64 {
        self.limit
    }

    #[inline]
    fn set_budget(&mut self, budget: u64) {
        self.limit = budget;
    }
}
