// Erased from crates/lru_tenants/src/cache/totals.rt: do not edit.
#[allow(unused_imports)]
use crate::rattle_std::prelude::*;

use crate::erased::lru_limits::Budgeted;
use crate::erased::lru_tenants::cache::TenantCache;
use crate::erased::lru_tenants::error::TenantError;
use crate::erased::schnellru::KeyHasher;
use crate::rattle_std::hash::Hash;

impl<N: Eq + Hash, K: Eq + Hash, V, L: Budgeted<K, V>, S: KeyHasher<K> + Copy> TenantCache<N, K, V, L, S> {
    /// Limits the sum of all tenants' budgets. `None` lifts the limit.
    ///
    /// Cost: `O(1)`.
    ///
    /// # Errors
    ///
    /// `OverTotal`: the sum is above the limit.
    pub fn set_total_limit(&mut self, limit: Option<u64>) -> Result<(), TenantError> {
        if is_above(limit, self.budgets) {
            return Err(TenantError::OverTotal);
        }
        self.total_limit = limit;
        Ok(())
    }

    /// Returns the limit of the sum of all tenants' budgets, if there is one.
    ///
    /// Cost: `O(1)`.
    pub fn total_limit(&self) -> Option<u64> {
        self.total_limit
    }

    /// Returns the sum of the budgets of all tenants.
    ///
    /// Cost: `O(1)`.
    pub fn total_budget(&self) -> u128 {
        self.budgets
    }

    /// Returns the sum of the costs of all entries.
    ///
    /// Cost: `O(1)` for each tenant.
    pub fn total_cost(&self) -> u128 {
        let _len = self.tenants.len();
        let mut sum = 0u128;
        for map in self.tenants.values() {
            sum += map.limiter().account() as u128;
        }
        sum
    }
}

pub(super) fn is_above(limit: Option<u64>, sum: u128) -> bool {
    match limit {
        Some(most) => sum > most as u128,
        None => false,
    }
}
