// Erased from crates/lru_tenants/src/cache.rt: do not edit.
#[allow(unused_imports)]
use crate::rattle_std::prelude::*;

use crate::erased::lru_limits::Budgeted;
use crate::erased::lru_tenants::error::TenantError;
use crate::erased::schnellru::{ByCost, Costed, KeyHasher, LookupKey, LruMap, RandomState, Unlimited, laws};
use crate::rattle_std::alloc::Global;
use crate::rattle_std::hash::Hash;

mod counted;
mod get_or_put;
mod passing;
mod reading;
mod removing;
mod totals;

use totals::is_above;
impl<N: Eq + Hash, K: Eq + Hash, V, L: Budgeted<K, V>, S: KeyHasher<K> + Copy> TenantCache<N, K, V, L, S> {
    pub(crate) fn sum_again(&mut self) {
        self.budgets = self.tenants.values().map(|map| map.limiter().budget() as u128).sum();
    }
}

/// A cache for many tenants. Each tenant has a name, and a map limited by its own budget.
///
/// The limiter `L` says what an entry costs. `S` hashes names and keys.
pub struct TenantCache<N: Eq + Hash, K: Eq + Hash, V, L: Budgeted<K, V> = ByCost, S: KeyHasher<K> + Copy = RandomState>
{
    tenants: LruMap<N, LruMap<K, V, L, S>, Unlimited, S>,
    hasher: S,
    budgets: u128,
    total_limit: Option<u64>,
    alloc: Global,
}

impl<N: Eq + Hash, K: Eq + Hash, V: Costed> TenantCache<N, K, V> {
    /// Makes a cache without tenants and without a total limit. An entry costs what its value costs.
    ///
    /// If strangers choose names or keys, take seeds that nobody can guess. Cost: `O(1)`, and no memory.
    pub fn new(alloc: Global, seeds: [u64; 4]) -> Self {
        TenantCache::with_hasher(alloc, RandomState::with_seeds(seeds))
    }
}

impl<N: Eq + Hash, K: Eq + Hash, V, L: Budgeted<K, V>, S: KeyHasher<K> + Copy> TenantCache<N, K, V, L, S> {
    /// Makes a cache without tenants, with any limiter that has a budget.
    ///
    /// If strangers choose names or keys, take std's `RandomState::new(&rt)?`, whose hashes nobody can guess. Cost:
    /// `O(1)`, and no memory.
    pub fn with_hasher(alloc: Global, hasher: S) -> Self {
        TenantCache {
            tenants: LruMap::<N, LruMap<K, V, L, S>, Unlimited, S>::with_limiter_and_hasher(alloc, Unlimited, hasher),
            hasher,
            budgets: 0,
            total_limit: None,
            alloc,
        }
    }

    /// Returns how many tenants are open.
    ///
    /// Cost: `O(1)`.
    pub fn len(&self) -> usize {
        self.tenants.len()
    }

    /// Returns whether no tenant is open.
    ///
    /// Cost: `O(1)`.
    pub fn is_empty(&self) -> bool {
        self.tenants.is_empty()
    }
}

impl<N: Eq + Hash, K: Eq + Hash, V, L: Budgeted<K, V>, S: KeyHasher<K> + Copy> TenantCache<N, K, V, L, S> {
    /// Opens a tenant with an empty map and a budget for the total cost of its entries.
    ///
    /// Cost: `O(1)` expected, amortised over the tenants.
    ///
    /// # Errors
    ///
    /// `AlreadyOpen`, `OverTotal` or `Memory`: nothing has changed.
    pub fn open(&mut self, name: N, budget: u64) -> Result<(), TenantError> {
        if self.tenants.contains(&name) {
            return Err(TenantError::AlreadyOpen);
        }
        let _len = self.tenants.len();
        let sum = self.budgets + budget as u128;
        if is_above(self.total_limit, sum) {
            return Err(TenantError::OverTotal);
        }
        let map = self.fresh(budget);
        let Ok(()) = self.tenants.try_insert(name, map) else {
            return Err(TenantError::Memory);
        };
        self.budgets = sum;
        Ok(())
    }

    fn fresh(&self, budget: u64) -> LruMap<K, V, L, S> {
        laws::runs_begin_with_maps::<K, V, L, S>();
        LruMap::with_limiter_and_hasher(self.alloc, L::with_budget(budget), self.hasher)
    }

    /// Inserts a key with a value, as the newest entry of the tenant. Returns whether the key is there afterwards.
    ///
    /// `ByCost` and `ByWeight` reject the entry if its cost alone is above the budget, or if the tenant's total would
    /// be above `u64::MAX`. A rejection removes the key's old entry. If the limiter accepts the entry, the tenant's
    /// oldest entries are evicted until the total cost is within the budget.
    ///
    /// Cost: as `LruMap::insert`.
    ///
    /// # Errors
    ///
    /// `NotOpen` or `Memory`. After `Memory`, some of the tenant's oldest entries may have been evicted.
    pub fn put<T: LookupKey<N>>(&mut self, name: &T, key: K, value: V) -> Result<bool, TenantError> {
        self.put_with(name, key, value, &mut |_, _| {})
    }

    /// Sets the budget of a tenant, and evicts the tenant's oldest entries while its total cost is above the budget.
    ///
    /// Cost: `O(1)` expected, and `O(1)` for each entry that is evicted.
    ///
    /// # Errors
    ///
    /// `NotOpen` or `OverTotal`.
    pub fn set_budget<T: LookupKey<N>>(&mut self, name: &T, budget: u64) -> Result<(), TenantError> {
        self.set_budget_with(name, budget, &mut |_, _| {})
    }

    /// Closes a tenant and drops its entries. Returns their number.
    ///
    /// Cost: `O(buckets)` of the tenant's table.
    ///
    /// # Errors
    ///
    /// `NotOpen`.
    pub fn close<T: LookupKey<N>>(&mut self, name: &T) -> Result<usize, TenantError> {
        let Some(map) = self.take_tenant(name) else {
            return Err(TenantError::NotOpen);
        };
        Ok(map.len())
    }

    pub(crate) fn take_tenant<T: LookupKey<N>>(&mut self, name: &T) -> Option<LruMap<K, V, L, S>> {
        let _len = self.tenants.len();
        let Some(map) = self.tenants.remove(name) else {
            return None;
        };
        self.budgets -= map.limiter().budget() as u128;
        Some(map)
    }
}
