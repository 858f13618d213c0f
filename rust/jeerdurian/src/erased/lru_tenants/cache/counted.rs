// Erased from crates/lru_tenants/src/cache/counted.rt: do not edit.
//! Calls that count. Each tenant's limiter stores the tenant's counts.

#[allow(unused_imports)]
use crate::rattle_std::prelude::*;

use crate::erased::lru_caches::Counts;
use crate::erased::lru_limits::Budgeted;
use crate::erased::lru_tenants::cache::TenantCache;
use crate::erased::lru_tenants::cache::passing::put_answer;
use crate::erased::lru_tenants::counting::Counting;
use crate::erased::lru_tenants::error::TenantError;
use crate::erased::lru_tenants::tenant::counted::{get_or_insert_counted, insert_counted, look_up, set_counts};
use crate::erased::lru_tenants::tenant::newest;
use crate::erased::schnellru::{KeyHasher, LookupKey};
use crate::rattle_std::hash::Hash;

impl<N: Eq + Hash, K: Eq + Hash, V, L: Budgeted<K, V>, S: KeyHasher<K> + Copy> TenantCache<N, K, V, Counting<L>, S> {
    /// Returns the counts of a tenant since it was opened, or since its last `take_counts`.
    ///
    /// Cost: `O(1)` expected.
    ///
    /// # Errors
    ///
    /// `NotOpen`.
    pub fn counts<T: LookupKey<N>>(&self, name: &T) -> Result<Counts, TenantError> {
        let Some(map) = self.tenants.peek(name) else {
            return Err(TenantError::NotOpen);
        };
        Ok(map.limiter().counts)
    }

    /// Sets the counts of a tenant.
    ///
    /// To count calls without a `_counted` form, use the methods of [`Counts`].
    ///
    /// Cost: `O(1)` expected.
    ///
    /// # Errors
    ///
    /// `NotOpen`.
    pub fn set_counts<T: LookupKey<N>>(&mut self, name: &T, counts: Counts) -> Result<(), TenantError> {
        let Some(own) = self.tenants.peek_mut(name) else {
            return Err(TenantError::NotOpen);
        };
        set_counts(own, counts);
        Ok(())
    }

    /// Returns the counts of a tenant, and sets them to zeros.
    ///
    /// Cost: `O(1)` expected.
    ///
    /// # Errors
    ///
    /// `NotOpen`.
    pub fn take_counts<T: LookupKey<N>>(&mut self, name: &T) -> Result<Counts, TenantError> {
        let Some(own) = self.tenants.peek_mut(name) else {
            return Err(TenantError::NotOpen);
        };
        let counts = own.limiter().counts;
        set_counts(own, Counts::default());
        Ok(counts)
    }

    /// Does what `get` does, and counts a hit or a miss.
    ///
    /// Cost: `O(1)` expected.
    ///
    /// # Errors
    ///
    /// `NotOpen`.
    pub fn get_counted<T: LookupKey<N>, Q: LookupKey<K>>(
        &mut self,
        name: &T,
        key: &Q,
    ) -> Result<Option<&V>, TenantError> {
        let Some(own) = self.tenants.peek_mut(name) else {
            return Err(TenantError::NotOpen);
        };
        if !look_up(own, key) {
            return Ok(None);
        }
        Ok(newest(own))
    }
}

impl<N: Eq + Hash, K: Eq + Hash, V, L: Budgeted<K, V>, S: KeyHasher<K> + Copy> TenantCache<N, K, V, Counting<L>, S> {
    /// Does what `put` does, and counts an insertion or a rejection, and the evictions.
    ///
    /// Cost: as `put`, plus a search.
    ///
    /// # Errors
    ///
    /// As `put`. The evicted entries are counted.
    pub fn put_counted<T: LookupKey<N>>(&mut self, name: &T, key: K, value: V) -> Result<bool, TenantError> {
        let Some(own) = self.tenants.peek_mut(name) else {
            return Err(TenantError::NotOpen);
        };
        put_answer(insert_counted(own, key, value))
    }

    /// Does what `get_or_put` does. If the key is there, counts a hit. Otherwise counts a miss, and the put (see
    /// `put_counted`).
    ///
    /// Cost: as `get` if the key is there, else as `put_counted`.
    ///
    /// # Errors
    ///
    /// As `put`. If the error is `Memory`, the closure was called, and the miss and the evicted entries are counted.
    pub fn get_or_put_counted<T: LookupKey<N>, F: FnOnce() -> V>(
        &mut self,
        name: &T,
        key: K,
        make: F,
    ) -> Result<Option<&V>, TenantError> {
        let Some(own) = self.tenants.peek_mut(name) else {
            return Err(TenantError::NotOpen);
        };
        let Ok(there) = get_or_insert_counted(own, key, make) else {
            return Err(TenantError::Memory);
        };
        if !there {
            return Ok(None);
        }
        Ok(newest(own))
    }
}
