// Erased from crates/lru_tenants/src/bytes/reading.rt: do not edit.
//! Calls that remove no tenant and no entry.

#[allow(unused_imports)]
use crate::rattle_std::prelude::*;

use crate::erased::lru_tenants::bytes::ByteTenants;
use crate::erased::lru_tenants::error::TenantError;
use crate::erased::schnellru::{KeyHasher, LookupKey, OwnedBytes};
use crate::rattle_std::hash::Hash;

impl<N: Eq + Hash + OwnedBytes, K: Eq + Hash + OwnedBytes, V: OwnedBytes, S: KeyHasher<K> + Copy>
    ByteTenants<N, K, V, S>
{
    /// Returns how many tenants are open.
    ///
    /// Cost: `O(1)`.
    pub fn len(&self) -> usize {
        self.tenants.len()
    }

    /// Returns the limit of all bytes.
    ///
    /// Cost: `O(1)`.
    pub fn limit(&self) -> u64 {
        self.tenants.limiter().limit()
    }

    /// Returns how many bytes a new tenant's limit and name may take, if the table of tenants does not grow.
    ///
    /// Cost: `O(1)`.
    pub fn left(&self) -> u64 {
        let table = self.tenants.memory_usage() as u64;
        let limiter = self.tenants.limiter();
        limiter.limit() - limiter.owned() - table
    }

    /// Returns the value of a tenant's key. The order stays.
    ///
    /// Cost: `O(1)` expected.
    ///
    /// # Errors
    ///
    /// `NotOpen`.
    pub fn peek<T: LookupKey<N>, Q: LookupKey<K>>(&self, name: &T, key: &Q) -> Result<Option<&V>, TenantError> {
        let Some(own) = self.tenants.peek(name) else {
            return Err(TenantError::NotOpen);
        };
        Ok(own.map.peek(key))
    }
}

impl<N: Eq + Hash + OwnedBytes, K: Eq + Hash + OwnedBytes, V: OwnedBytes, S: KeyHasher<K> + Copy>
    ByteTenants<N, K, V, S>
{
    /// Returns the value of a tenant's key, and makes the key's entry the tenant's newest.
    ///
    /// Cost: `O(1)` expected.
    ///
    /// # Errors
    ///
    /// `NotOpen`.
    pub fn get<T: LookupKey<N>, Q: LookupKey<K>>(&mut self, name: &T, key: &Q) -> Result<Option<&V>, TenantError> {
        let Some(own) = self.tenants.peek_mut(name) else {
            return Err(TenantError::NotOpen);
        };
        Ok(own.get(key))
    }
}
