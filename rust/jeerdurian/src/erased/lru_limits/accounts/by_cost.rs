// Erased from crates/lru_limits/src/accounts/by_cost.rt: do not edit.
#[allow(unused_imports)]
use crate::rattle_std::prelude::*;

use crate::erased::lru_limits::accounts::{Budgeted, Costed, Summing, sum_with};
use crate::erased::lru_limits::admission::Admission;
use crate::erased::lru_limits::limiter::Limiter;

/// Limits the sum of the costs of the values. Contracts represent the limiter by its limit and its running total.
///
/// `ByCost` rejects an entry or a new value if the cost of the value alone is above the limit, or if the sum would pass
/// `u64::MAX`. After `ByCost` accepts an entry, the map evicts its oldest entries until the sum of the costs is within
/// the limit.
///
/// Cost: each callback reads the cost of each of its values once, and takes no memory.
#[derive(Clone, Copy, Debug)]
pub struct ByCost {
    limit: u64,
    cost: u64,
}

impl ByCost {
    /// Makes a limiter with this limit.
    pub const fn new(limit: u64) -> ByCost {
        ByCost { limit, cost: 0 }
    }

    /// Returns the same limiter with another limit. The sum stays.
    pub const fn with_limit(&self, limit: u64) -> ByCost {
        ByCost { limit, cost: self.cost }
    }

    /// Returns the limit.
    pub const fn limit(&self) -> u64 {
        self.limit
    }

    /// Returns the sum of the costs.
    pub const fn cost(&self) -> u64 {
        self.cost
    }
}

impl<K, V: Costed> Limiter<K, V> for ByCost {
    type LinkType = usize;

    #[inline]
    fn is_over_the_limit(&self, _length: usize) -> bool {
        self.cost > self.limit
    }

    #[inline]
    fn on_removed(&mut self, _key: &mut K, value: &mut V) {
        self.cost = self.cost.saturating_sub(value.cost());
    }

    #[inline]
    fn on_cleared(&mut self) {
        self.cost = 0;
    }

    #[inline]
    fn on_grow(&mut self, _new_memory_usage: usize) -> bool {
        true
    }
}

impl<K, V: Costed> Summing<K, V> for ByCost {
    #[inline]
    fn cost_of(_key: &K, value: &V) -> u64 {
        value.cost()
    }

    #[inline]
    fn account(&self) -> u64 {
        self.cost
    }
}

impl<K, V: Costed> Admission<K, V> for ByCost {
    #[inline]
    fn accepts(&self, _length: usize, _key: &K, value: &V) -> bool {
        sum_with(self.limit, self.cost, value.cost()).is_some()
    }

    #[inline]
    fn admit(&mut self, _length: usize, _key: &K, value: &V) -> bool {
        match sum_with(self.limit, self.cost, value.cost()) {
            Some(sum) => {
                self.cost = sum;
                true
            }
            None => false,
        }
    }

    #[inline]
    fn accepts_in_place(&self, _length: usize, _key: &K, old_value: &V, new_value: &V) -> bool {
        let without_old = self.cost.saturating_sub(old_value.cost());
        sum_with(self.limit, without_old, new_value.cost()).is_some()
    }

    #[inline]
    fn admit_in_place(&mut self, _length: usize, _key: &K, old_value: &V, new_value: &V) -> bool {
        let without_old = self.cost.saturating_sub(old_value.cost());
        match sum_with(self.limit, without_old, new_value.cost()) {
            Some(sum) => {
                self.cost = sum;
                true
            }
            None => false,
        }
    }
}

impl<K, V: Costed> Budgeted<K, V> for ByCost {
    #[inline]
    fn with_budget(budget: u64) -> ByCost {
        ByCost::new(budget)
    }

    #[inline]
    fn budget(&self) -> u64 {
        self.limit
    }

    #[inline]
    fn set_budget(&mut self, budget: u64) {
        self.limit = budget;
    }
}
