// Erased from crates/lru_tenants/src/cache/get_or_put.rt: do not edit.
#[allow(unused_imports)]
use crate::rattle_std::prelude::*;

use crate::erased::lru_limits::Budgeted;
use crate::erased::lru_tenants::cache::TenantCache;
use crate::erased::lru_tenants::error::TenantError;
use crate::erased::lru_tenants::tenant::{get_or_insert, newest};
use crate::erased::schnellru::{KeyHasher, LookupKey};
use crate::rattle_std::hash::Hash;

impl<N: Eq + Hash, K: Eq + Hash, V, L: Budgeted<K, V>, S: KeyHasher<K> + Copy> TenantCache<N, K, V, L, S> {
    /// Does what `get` does if the key is there. If not, puts the value that the closure returns, and returns this
    /// value.
    ///
    /// `None` means that the tenant does not keep the new entry.
    ///
    /// Cost: as `get` if the key is there, else as `put`.
    ///
    /// # Errors
    ///
    /// As `put`. If the error is `Memory`, the closure was called.
    pub fn get_or_put<T: LookupKey<N>, F: FnOnce() -> V>(
        &mut self,
        name: &T,
        key: K,
        make: F,
    ) -> Result<Option<&V>, TenantError> {
        let Some(own) = self.tenants.peek_mut(name) else {
            return Err(TenantError::NotOpen);
        };
        let Ok(there) = get_or_insert(own, key, make) else {
            return Err(TenantError::Memory);
        };
        if !there {
            return Ok(None);
        }
        Ok(newest(own))
    }
}
