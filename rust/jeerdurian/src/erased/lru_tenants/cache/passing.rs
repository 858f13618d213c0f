// Erased from crates/lru_tenants/src/cache/passing.rt: do not edit.
#[allow(unused_imports)]
use crate::rattle_std::prelude::*;

use crate::erased::lru_limits::Budgeted;
use crate::erased::lru_tenants::cache::TenantCache;
use crate::erased::lru_tenants::cache::totals::is_above;
use crate::erased::lru_tenants::error::TenantError;
use crate::erased::lru_tenants::tenant::{empty, insert, insert_full, set_budget};
use crate::erased::schnellru::{Inserted, KeyHasher, LookupKey};
use crate::rattle_std::alloc::AllocError;
use crate::rattle_std::hash::Hash;

impl<N: Eq + Hash, K: Eq + Hash, V, L: Budgeted<K, V>, S: KeyHasher<K> + Copy> TenantCache<N, K, V, L, S> {
    /// Does what `put` does, and passes to the callback the entries that `LruMap::insert_with` passes.
    ///
    /// Cost: as `put`, plus the calls of the callback.
    ///
    /// # Errors
    ///
    /// As `put`.
    pub fn put_with<T: LookupKey<N>, F: FnMut(K, V)>(
        &mut self,
        name: &T,
        key: K,
        value: V,
        sink: &mut F,
    ) -> Result<bool, TenantError> {
        let Some(own) = self.tenants.peek_mut(name) else {
            return Err(TenantError::NotOpen);
        };
        put_answer(insert(own, key, value, sink))
    }

    /// Does what `put_with` does, and returns the value that the tenant does not keep, as [`Inserted`] says. If the
    /// limiter rejects the entry of a new key, returns the given value, and `kept` is false. Such a rejection leaves
    /// the tenant as it is, passes nothing to the callback, and drops the key.
    ///
    /// If the key was there and is not kept, the callback got the key's entry. This entry has the old value if the
    /// limiter rejected the new value. Otherwise it has the new value.
    ///
    /// Cost: as `put_with`.
    ///
    /// # Errors
    ///
    /// As `put`. After `NotOpen`, the key and the value are dropped. After `Memory`, the callback got the key and the
    /// value.
    pub fn put_full<T: LookupKey<N>, F: FnMut(K, V)>(
        &mut self,
        name: &T,
        key: K,
        value: V,
        sink: &mut F,
    ) -> Result<Inserted<V>, TenantError> {
        let Some(own) = self.tenants.peek_mut(name) else {
            return Err(TenantError::NotOpen);
        };
        put_answer(insert_full(own, key, value, sink))
    }

    /// Does what `set_budget` does, and passes each evicted entry to the callback, oldest first.
    ///
    /// Cost: as `set_budget`, plus the calls of the callback.
    ///
    /// # Errors
    ///
    /// As `set_budget`.
    pub fn set_budget_with<T: LookupKey<N>, F: FnMut(K, V)>(
        &mut self,
        name: &T,
        budget: u64,
        sink: &mut F,
    ) -> Result<(), TenantError> {
        let _len = self.tenants.len();
        let Some(own) = self.tenants.peek_mut(name) else {
            return Err(TenantError::NotOpen);
        };
        let sum = self.budgets - own.limiter().budget() as u128 + budget as u128;
        if is_above(self.total_limit, sum) {
            return Err(TenantError::OverTotal);
        }
        self.budgets = sum;
        set_budget(own, budget, sink);
        Ok(())
    }

    /// Does what `close` does, and passes each entry to the callback, oldest first.
    ///
    /// Cost: `O(1)` and one call of the callback for each entry.
    ///
    /// # Errors
    ///
    /// `NotOpen`.
    pub fn close_with<T: LookupKey<N>, F: FnMut(K, V)>(
        &mut self,
        name: &T,
        sink: &mut F,
    ) -> Result<usize, TenantError> {
        let Some(mut map) = self.take_tenant(name) else {
            return Err(TenantError::NotOpen);
        };
        Ok(empty(&mut map, sink))
    }
}

pub(super) fn put_answer<R>(inserted: Result<R, AllocError>) -> Result<R, TenantError> {
    match inserted {
        Ok(inserted) => Ok(inserted),
        Err(_) => Err(TenantError::Memory),
    }
}
