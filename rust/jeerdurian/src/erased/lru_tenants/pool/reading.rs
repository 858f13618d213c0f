// Erased from crates/lru_tenants/src/pool/reading.rt: do not edit.
#[allow(unused_imports)]
use crate::rattle_std::prelude::*;

use crate::erased::lru_limits::Budgeted;
use crate::erased::lru_tenants::error::TenantError;
use crate::erased::lru_tenants::pool::TenantPool;
use crate::erased::lru_tenants::pool::part::cost_of;
use crate::erased::lru_tenants::tenant::remove;
use crate::erased::schnellru::{KeyHasher, LookupKey};
use crate::rattle_std::hash::Hash;

impl<N: Eq + Hash, K: Eq + Hash, V, L: Budgeted<K, V>, S: KeyHasher<K> + Copy> TenantPool<N, K, V, L, S> {
    /// Returns how many tenants are open.
    ///
    /// Cost: `O(1)`.
    pub fn len(&self) -> usize {
        self.tenants.len()
    }

    /// Returns whether no tenant is open.
    ///
    /// Cost: `O(1)`.
    pub fn is_empty(&self) -> bool {
        self.tenants.is_empty()
    }

    /// Returns the limit of the total cost.
    ///
    /// Cost: `O(1)`.
    pub fn limit(&self) -> u64 {
        self.limit
    }

    /// Returns the sum of the costs of all entries.
    ///
    /// Cost: `O(1)`.
    pub fn total_cost(&self) -> u128 {
        self.total
    }

    /// Returns the sum of the costs of a tenant's entries.
    ///
    /// Cost: `O(1)` expected.
    ///
    /// # Errors
    ///
    /// `NotOpen`.
    pub fn cost<T: LookupKey<N>>(&self, name: &T) -> Result<u64, TenantError> {
        let Some((_, map)) = self.tenants.peek(name) else {
            return Err(TenantError::NotOpen);
        };
        Ok(cost_of(map))
    }

    /// Returns the share of a tenant.
    ///
    /// Cost: `O(1)` expected.
    ///
    /// # Errors
    ///
    /// `NotOpen`.
    pub fn share<T: LookupKey<N>>(&self, name: &T) -> Result<u64, TenantError> {
        let Some((share, _)) = self.tenants.peek(name) else {
            return Err(TenantError::NotOpen);
        };
        Ok(*share)
    }

    /// Returns whether a tenant has an entry for a key.
    ///
    /// Cost: `O(1)` expected.
    ///
    /// # Errors
    ///
    /// `NotOpen`.
    pub fn contains<T: LookupKey<N>, Q: LookupKey<K>>(&self, name: &T, key: &Q) -> Result<bool, TenantError> {
        let Some((_, map)) = self.tenants.peek(name) else {
            return Err(TenantError::NotOpen);
        };
        Ok(map.contains(key))
    }

    /// Returns the value of a tenant's key. The order stays.
    ///
    /// Cost: `O(1)` expected.
    ///
    /// # Errors
    ///
    /// `NotOpen`.
    pub fn peek<T: LookupKey<N>, Q: LookupKey<K>>(&self, name: &T, key: &Q) -> Result<Option<&V>, TenantError> {
        let Some((_, map)) = self.tenants.peek(name) else {
            return Err(TenantError::NotOpen);
        };
        Ok(map.peek(key))
    }

    /// Returns the value of a tenant's key, and makes the key's entry the tenant's newest.
    ///
    /// Cost: `O(1)` expected.
    ///
    /// # Errors
    ///
    /// `NotOpen`.
    pub fn get<T: LookupKey<N>, Q: LookupKey<K>>(&mut self, name: &T, key: &Q) -> Result<Option<&V>, TenantError> {
        let Some(own) = self.tenants.peek_mut(name) else {
            return Err(TenantError::NotOpen);
        };
        let (_, map) = own;
        match map.get(key) {
            Some(value) => Ok(Some(&*value)),
            None => Ok(None),
        }
    }
}

impl<N: Eq + Hash, K: Eq + Hash, V, L: Budgeted<K, V>, S: KeyHasher<K> + Copy> TenantPool<N, K, V, L, S> {
    /// Removes a key of a tenant. Returns its value.
    ///
    /// Cost: `O(1)` expected.
    ///
    /// # Errors
    ///
    /// `NotOpen`.
    pub fn remove<T: LookupKey<N>, Q: LookupKey<K>>(&mut self, name: &T, key: &Q) -> Result<Option<V>, TenantError> {
        let Some(own) = self.tenants.peek_mut(name) else {
            return Err(TenantError::NotOpen);
        };
        let (_, map) = own;
        let before = cost_of(map);
        let value = remove(map, key);
        let after = cost_of(map);
        self.total = self.total - before as u128 + after as u128;
        Ok(value)
    }
}
