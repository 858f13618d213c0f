//! The budgets of tenants, and their total limit.

use super::{Budget, TenantCache, TenantError};
use crate::keys::Borrowed;
use core::borrow::Borrow;
use core::hash::{BuildHasher, Hash};

impl<N, K, V, L, S> TenantCache<N, K, V, L, S>
where
    N: Eq + Hash,
    K: Eq + Hash,
    L: Budget<K, V>,
    S: BuildHasher + Copy,
{
    /// Returns the budget of a tenant.
    ///
    /// Cost: `O(1)` expected.
    ///
    /// # Errors
    ///
    /// `NotOpen`.
    ///
    /// ```
    /// # let mut cache = jeerdurian::tenants::TenantCache::<u64, u64, u64>::new();
    /// # cache.open(1, 3).unwrap();
    /// # cache.put(&1, 7, 2).unwrap();
    /// assert_eq!(cache.budget(&1), Ok(3));
    /// ```
    pub fn budget<T>(&self, name: &T) -> Result<u64, TenantError>
    where
        N: Borrow<T>,
        T: Eq + Hash + ?Sized,
    {
        self.cache.budget(&Borrowed(name))
    }

    /// Sets the budget of a tenant. Evicts the tenant's oldest entries while its cost is above the budget.
    ///
    /// Cost: `O(1)` expected, and `O(1)` for each entry that is evicted.
    ///
    /// # Errors
    ///
    /// `NotOpen`; `OverTotal`: the sum of all budgets would be above the total limit. An error changes nothing.
    ///
    /// ```
    /// # let mut cache = jeerdurian::tenants::TenantCache::<u64, u64, u64>::new();
    /// # cache.open(1, 3).unwrap();
    /// # cache.put(&1, 7, 2).unwrap();
    /// assert_eq!((cache.set_budget(&1, 1), cache.cost(&1)), (Ok(()), Ok(0)));
    /// ```
    pub fn set_budget<T>(&mut self, name: &T, budget: u64) -> Result<(), TenantError>
    where
        N: Borrow<T>,
        T: Eq + Hash + ?Sized,
    {
        self.cache.set_budget(&Borrowed(name), budget)
    }

    /// Sets the budget as [`set_budget`](Self::set_budget) does, and passes each evicted entry to the callback, oldest
    /// first. Cost: as `set_budget`, plus the calls of the callback.
    ///
    /// # Errors
    ///
    /// As for `set_budget`.
    ///
    /// ```
    /// # let mut cache = jeerdurian::tenants::TenantCache::<u64, u64, u64>::new();
    /// # cache.open(1, 3).unwrap();
    /// # cache.put(&1, 7, 2).unwrap();
    /// let mut evicted = 0;
    /// assert_eq!(cache.set_budget_with(&1, 1, |key, _| evicted = key), Ok(()));
    /// assert_eq!(evicted, 7);
    /// ```
    pub fn set_budget_with<T>(&mut self, name: &T, budget: u64, mut lost: impl FnMut(K, V)) -> Result<(), TenantError>
    where
        N: Borrow<T>,
        T: Eq + Hash + ?Sized,
    {
        self.cache.set_budget_with(&Borrowed(name), budget, &mut lost)
    }

    /// Sets the total limit: the greatest sum of all budgets. `None` lifts the limit. Cost: `O(1)`.
    ///
    /// # Errors
    ///
    /// `OverTotal`: the sum of all budgets is above the new limit. The old limit stays.
    ///
    /// ```
    /// # let mut cache = jeerdurian::tenants::TenantCache::<u64, u64, u64>::new();
    /// # cache.open(1, 3).unwrap();
    /// # cache.put(&1, 7, 2).unwrap();
    /// use jeerdurian::tenants::TenantError;
    ///
    /// assert_eq!(cache.set_total_limit(Some(5)), Ok(()));
    /// assert_eq!(cache.open(2, 3), Err(TenantError::OverTotal));
    /// ```
    pub fn set_total_limit(&mut self, limit: Option<u64>) -> Result<(), TenantError> {
        self.cache.set_total_limit(limit)
    }

    /// Returns the greatest sum of all budgets, if there is a limit. Cost: `O(1)`.
    ///
    /// ```
    /// # let mut cache = jeerdurian::tenants::TenantCache::<u64, u64, u64>::new();
    /// # cache.open(1, 3).unwrap();
    /// # cache.put(&1, 7, 2).unwrap();
    /// assert_eq!(cache.total_limit(), None);
    /// ```
    pub fn total_limit(&self) -> Option<u64> {
        self.cache.total_limit()
    }

    /// Returns the sum of the budgets of all tenants. It is at most the total limit, if there is one. Cost: `O(1)`.
    ///
    /// ```
    /// # let mut cache = jeerdurian::tenants::TenantCache::<u64, u64, u64>::new();
    /// # cache.open(1, 3).unwrap();
    /// # cache.put(&1, 7, 2).unwrap();
    /// assert_eq!((cache.total_cost(), cache.total_budget()), (2, 3));
    /// ```
    pub fn total_budget(&self) -> u128 {
        self.cache.total_budget()
    }

    /// Returns the sum of the costs of the entries of all tenants. It is at most the sum of their budgets.
    ///
    /// Cost: `O(1)` for each tenant.
    ///
    /// ```
    /// # let mut cache = jeerdurian::tenants::TenantCache::<u64, u64, u64>::new();
    /// # cache.open(1, 3).unwrap();
    /// # cache.put(&1, 7, 2).unwrap();
    /// assert_eq!((cache.total_cost(), cache.total_budget()), (2, 3));
    /// ```
    pub fn total_cost(&self) -> u128 {
        self.cache.total_cost()
    }
}
