// Erased from crates/lru_tenants/src/cache/reading.rt: do not edit.
#[allow(unused_imports)]
use crate::rattle_std::prelude::*;

use crate::erased::lru_limits::Budgeted;
use crate::erased::lru_tenants::cache::TenantCache;
use crate::erased::lru_tenants::error::TenantError;
use crate::erased::schnellru::{Iter, KeyHasher, Keys, LookupKey, LruMap};
use crate::rattle_std::hash::Hash;

impl<N: Eq + Hash, K: Eq + Hash, V, L: Budgeted<K, V>, S: KeyHasher<K> + Copy> TenantCache<N, K, V, L, S> {
    /// Returns the value of a tenant's key, and makes the key's entry the tenant's newest.
    ///
    /// Cost: `O(1)` expected.
    ///
    /// # Errors
    ///
    /// `NotOpen`.
    pub fn get<T: LookupKey<N>, Q: LookupKey<K>>(&mut self, name: &T, key: &Q) -> Result<Option<&V>, TenantError> {
        let Some(map) = self.tenants.peek_mut(name) else {
            return Err(TenantError::NotOpen);
        };
        match map.get(key) {
            Some(value) => Ok(Some(&*value)),
            None => Ok(None),
        }
    }

    /// Returns the value of a tenant's key. The order stays.
    ///
    /// Cost: `O(1)` expected.
    ///
    /// # Errors
    ///
    /// `NotOpen`.
    pub fn peek<T: LookupKey<N>, Q: LookupKey<K>>(&self, name: &T, key: &Q) -> Result<Option<&V>, TenantError> {
        let Some(map) = self.tenants.peek(name) else {
            return Err(TenantError::NotOpen);
        };
        Ok(map.peek(key))
    }

    /// Returns whether a tenant has an entry for a key.
    ///
    /// Cost: `O(1)` expected.
    ///
    /// # Errors
    ///
    /// `NotOpen`.
    pub fn contains<T: LookupKey<N>, Q: LookupKey<K>>(&self, name: &T, key: &Q) -> Result<bool, TenantError> {
        let Some(map) = self.tenants.peek(name) else {
            return Err(TenantError::NotOpen);
        };
        Ok(map.contains(key))
    }

    /// Returns an iterator over a tenant's entries, newest first.
    ///
    /// Cost: `O(1)` expected, and `O(1)` for each step from either end.
    ///
    /// # Errors
    ///
    /// `NotOpen`.
    pub fn iter<T: LookupKey<N>>(&self, name: &T) -> Result<Iter<'_, K, V, L>, TenantError> {
        let Some(map) = self.tenants.peek(name) else {
            return Err(TenantError::NotOpen);
        };
        Ok(map.iter())
    }

    /// Returns how many entries a tenant has.
    ///
    /// Cost: `O(1)` expected.
    ///
    /// # Errors
    ///
    /// `NotOpen`.
    pub fn entries<T: LookupKey<N>>(&self, name: &T) -> Result<usize, TenantError> {
        let Some(map) = self.tenants.peek(name) else {
            return Err(TenantError::NotOpen);
        };
        Ok(map.len())
    }

    /// Returns the budget of a tenant.
    ///
    /// Cost: `O(1)` expected.
    ///
    /// # Errors
    ///
    /// `NotOpen`.
    pub fn budget<T: LookupKey<N>>(&self, name: &T) -> Result<u64, TenantError> {
        let Some(map) = self.tenants.peek(name) else {
            return Err(TenantError::NotOpen);
        };
        Ok(map.limiter().budget())
    }

    /// Returns the sum of the costs of a tenant's entries.
    ///
    /// Cost: `O(1)` expected.
    ///
    /// # Errors
    ///
    /// `NotOpen`.
    pub fn cost<T: LookupKey<N>>(&self, name: &T) -> Result<u64, TenantError> {
        let Some(map) = self.tenants.peek(name) else {
            return Err(TenantError::NotOpen);
        };
        Ok(map.limiter().account())
    }

    /// Returns the names of the open tenants, in no particular order.
    ///
    /// Cost: `O(1)`, and `O(1)` for each name.
    pub fn names(&self) -> Keys<'_, N, LruMap<K, V, L, S>, usize> {
        self.tenants.keys()
    }
}
