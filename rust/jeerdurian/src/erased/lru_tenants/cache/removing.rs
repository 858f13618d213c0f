// Erased from crates/lru_tenants/src/cache/removing.rt: do not edit.
#[allow(unused_imports)]
use crate::rattle_std::prelude::*;

use crate::erased::lru_limits::Budgeted;
use crate::erased::lru_tenants::cache::TenantCache;
use crate::erased::lru_tenants::error::TenantError;
use crate::erased::lru_tenants::tenant::{clear, remove, retain};
use crate::erased::schnellru::{KeyHasher, LookupKey};
use crate::rattle_std::hash::Hash;

impl<N: Eq + Hash, K: Eq + Hash, V, L: Budgeted<K, V>, S: KeyHasher<K> + Copy> TenantCache<N, K, V, L, S> {
    /// Removes a key of a tenant. Returns its value.
    ///
    /// Cost: `O(1)` expected.
    ///
    /// # Errors
    ///
    /// `NotOpen`.
    pub fn remove<T: LookupKey<N>, Q: LookupKey<K>>(&mut self, name: &T, key: &Q) -> Result<Option<V>, TenantError> {
        let Some(own) = self.tenants.peek_mut(name) else {
            return Err(TenantError::NotOpen);
        };
        Ok(remove(own, key))
    }

    /// Removes a tenant's entries for which the closure returns false. The closure is called with each entry, oldest
    /// first.
    ///
    /// Cost: `O(n)` for n entries of the tenant.
    ///
    /// # Errors
    ///
    /// `NotOpen`.
    pub fn retain<T: LookupKey<N>, F: FnMut(&K, &V) -> bool>(&mut self, name: &T, keep: F) -> Result<(), TenantError> {
        let Some(own) = self.tenants.peek_mut(name) else {
            return Err(TenantError::NotOpen);
        };
        retain(own, keep);
        Ok(())
    }

    /// Drops the entries of a tenant. The tenant stays open.
    ///
    /// Cost: as `LruMap::clear`.
    ///
    /// # Errors
    ///
    /// `NotOpen`.
    pub fn clear<T: LookupKey<N>>(&mut self, name: &T) -> Result<(), TenantError> {
        let Some(own) = self.tenants.peek_mut(name) else {
            return Err(TenantError::NotOpen);
        };
        clear(own);
        Ok(())
    }
}
