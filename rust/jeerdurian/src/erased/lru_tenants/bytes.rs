// Erased from crates/lru_tenants/src/bytes.rt: do not edit.
//! `ByteTenants`.

#[allow(unused_imports)]
use crate::rattle_std::prelude::*;

use crate::erased::lru_tenants::error::TenantError;
use crate::erased::schnellru::{ByBytes, KeyHasher, LookupKey, LruMap, OwnedBytes, RandomState, laws};
use crate::rattle_std::alloc::Global;
use crate::rattle_std::hash::Hash;

mod reading;
mod tenant;

use tenant::ByteTenant;

/// A cache for many tenants within one limit of bytes. The limit covers the table of tenants, the names and tables of
/// the tenants, and the bytes that entries own.
///
/// [`ByBytes`] limits each tenant's map to the tenant's own limit. While a table grows, the old table is not counted.
pub struct ByteTenants<
    N: Eq + Hash + OwnedBytes,
    K: Eq + Hash + OwnedBytes,
    V: OwnedBytes,
    S: KeyHasher<K> + Copy = RandomState,
> {
    tenants: LruMap<N, ByteTenant<K, V, S>, ByBytes, S>,
    alloc: Global,
}

impl<N: Eq + Hash + OwnedBytes, K: Eq + Hash + OwnedBytes, V: OwnedBytes> ByteTenants<N, K, V> {
    /// Makes a cache without tenants (see `TenantCache::new`). Cost: `O(1)`, and no memory.
    pub fn new(alloc: Global, seeds: [u64; 4], limit: u64) -> Self {
        ByteTenants::with_hasher(alloc, RandomState::with_seeds(seeds), limit)
    }
}

impl<N: Eq + Hash + OwnedBytes, K: Eq + Hash + OwnedBytes, V: OwnedBytes, S: KeyHasher<K> + Copy>
    ByteTenants<N, K, V, S>
{
    /// Makes a cache without tenants (see `TenantCache::with_hasher`). Cost: `O(1)`, and no memory.
    pub fn with_hasher(alloc: Global, hasher: S, limit: u64) -> Self {
        laws::calls_keep_the_bytes::<N, ByteTenant<K, V, S>, S>();
        ByteTenants {
            tenants: LruMap::<N, ByteTenant<K, V, S>, ByBytes, S>::with_limiter_and_hasher(
                alloc,
                ByBytes::new(limit),
                hasher,
            ),
            alloc,
        }
    }

    /// Opens a tenant with an empty map, and reserves the tenant's limit until the tenant is closed.
    ///
    /// Cost: as `LruMap::try_insert`.
    ///
    /// # Errors
    ///
    /// The tenants are unchanged. `AlreadyOpen`. `OverTotal`: `limit` plus the bytes of the name is above `left()`.
    /// `Memory`: the table of tenants must grow, but memory ran out, or the cache's limit does not permit a larger
    /// table. After `Memory` the table may be larger, so `left` may be lower.
    pub fn open(&mut self, name: N, limit: u64) -> Result<(), TenantError> {
        laws::runs_keep_the_bytes::<N, ByteTenant<K, V, S>, S>();
        let _len = self.tenants.len();
        if self.tenants.contains(&name) {
            return Err(TenantError::AlreadyOpen);
        }
        let bytes = name.owned_bytes().saturating_add(limit);
        if bytes > self.left() {
            return Err(TenantError::OverTotal);
        }
        let own = ByteTenant::new(self.alloc, *self.tenants.hasher(), limit);
        let Ok(()) = self.tenants.try_insert(name, own) else {
            return Err(TenantError::Memory);
        };
        Ok(())
    }

    /// Does what `TenantCache::put` does, under [`ByBytes`] with the tenant's limit.
    ///
    /// Cost: as `LruMap::insert`.
    ///
    /// # Errors
    ///
    /// As `TenantCache::put`.
    pub fn put<T: LookupKey<N>>(&mut self, name: &T, key: K, value: V) -> Result<bool, TenantError> {
        let _len = self.tenants.len();
        let Some(own) = self.tenants.peek_mut(name) else {
            return Err(TenantError::NotOpen);
        };
        match own.insert(key, value) {
            Ok(kept) => Ok(kept),
            Err(_) => Err(TenantError::Memory),
        }
    }

    /// Closes a tenant and drops its entries. Returns their number. The table of tenants keeps its size.
    ///
    /// Cost: `O(buckets)` of the tenant's table.
    ///
    /// # Errors
    ///
    /// `NotOpen`.
    pub fn close<T: LookupKey<N>>(&mut self, name: &T) -> Result<usize, TenantError> {
        laws::calls_keep_the_bytes::<N, ByteTenant<K, V, S>, S>();
        let _len = self.tenants.len();
        let Some(own) = self.tenants.remove(name) else {
            return Err(TenantError::NotOpen);
        };
        Ok(own.map.len())
    }

    /// Removes a key of a tenant. Returns its value.
    ///
    /// Cost: `O(1)` expected.
    ///
    /// # Errors
    ///
    /// `NotOpen`.
    pub fn remove<T: LookupKey<N>, Q: LookupKey<K>>(&mut self, name: &T, key: &Q) -> Result<Option<V>, TenantError> {
        let _len = self.tenants.len();
        let Some(own) = self.tenants.peek_mut(name) else {
            return Err(TenantError::NotOpen);
        };
        Ok(own.remove(key))
    }
}
