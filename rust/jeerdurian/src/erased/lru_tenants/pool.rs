// Erased from crates/lru_tenants/src/pool.rt: do not edit.
#[allow(unused_imports)]
use crate::rattle_std::prelude::*;

use crate::erased::lru_limits::Budgeted;
use crate::erased::lru_tenants::error::TenantError;
use crate::erased::lru_tenants::tenant::insert;
use crate::erased::schnellru::{ByCost, Costed, KeyHasher, LookupKey, LruMap, RandomState, Unlimited};
use crate::rattle_std::alloc::Global;
use crate::rattle_std::hash::Hash;

mod evict;
mod part;
mod reading;

use evict::settle;
use part::{Part, cost_of, opened};
impl<N: Eq + Hash, K: Eq + Hash, V, L: Budgeted<K, V>, S: KeyHasher<K> + Copy> TenantPool<N, K, V, L, S> {
    pub(crate) fn sum_again(&mut self) {
        self.shares = self.tenants.values().map(|(share, _)| *share).sum();
        self.total = self.tenants.values().map(|(_, map)| cost_of(map) as u128).sum();
    }
}

/// A cache for many tenants. Each tenant has its own share of one limit, and any tenant may use the rest.
///
/// All costs add up to at most the limit. While a tenant's cost is within its share, calls on other tenants do not
/// change this tenant.
pub struct TenantPool<N: Eq + Hash, K: Eq + Hash, V, L: Budgeted<K, V> = ByCost, S: KeyHasher<K> + Copy = RandomState> {
    tenants: LruMap<N, Part<K, V, L, S>, Unlimited, S>,
    hasher: S,
    limit: u64,
    shares: u64,
    total: u128,
    alloc: Global,
}

impl<N: Eq + Hash, K: Eq + Hash, V: Costed> TenantPool<N, K, V> {
    /// Makes a pool without tenants (see `TenantCache::new`). Cost: `O(1)`, and no memory.
    pub fn new(alloc: Global, seeds: [u64; 4], limit: u64) -> Self {
        TenantPool::with_hasher(alloc, RandomState::with_seeds(seeds), limit)
    }
}

impl<N: Eq + Hash, K: Eq + Hash, V, L: Budgeted<K, V>, S: KeyHasher<K> + Copy> TenantPool<N, K, V, L, S> {
    /// Makes a pool without tenants (see `TenantCache::with_hasher`). Cost: `O(1)`, and no memory.
    pub fn with_hasher(alloc: Global, hasher: S, limit: u64) -> Self {
        TenantPool {
            tenants: LruMap::<N, Part<K, V, L, S>, Unlimited, S>::with_limiter_and_hasher(alloc, Unlimited, hasher),
            hasher,
            limit,
            shares: 0,
            total: 0,
            alloc,
        }
    }
}

impl<N: Eq + Hash, K: Eq + Hash, V, L: Budgeted<K, V>, S: KeyHasher<K> + Copy> TenantPool<N, K, V, L, S> {
    /// Opens a tenant with an empty map and its own share of the limit.
    ///
    /// Cost: `O(1)` expected, amortised over the tenants.
    ///
    /// # Errors
    ///
    /// `AlreadyOpen`, `OverTotal` or `Memory`: nothing has changed.
    pub fn open(&mut self, name: N, share: u64) -> Result<(), TenantError> {
        if self.tenants.contains(&name) {
            return Err(TenantError::AlreadyOpen);
        }
        let left = self.limit - self.shares;
        if share > left {
            return Err(TenantError::OverTotal);
        }
        let own = opened(self.alloc, self.hasher, self.limit, share);
        let Ok(()) = self.tenants.try_insert(name, own) else {
            return Err(TenantError::Memory);
        };
        self.shares += share;
        Ok(())
    }

    /// Inserts a key with a value, as the newest entry of the tenant. Returns whether the key is there afterwards.
    ///
    /// First does what `TenantCache::put` does for a tenant whose budget is the limit of the pool. Then, while the
    /// total cost is above the limit, evicts the oldest entry of the tenant furthest above its share. The new entry may
    /// be evicted, too. If several tenants are equally far above, any of them may lose an entry.
    ///
    /// Cost: as `LruMap::insert`, and `O(1)` for each tenant at each eviction.
    ///
    /// # Errors
    ///
    /// As `TenantCache::put`. No other tenant has changed.
    pub fn put<T: LookupKey<N>>(&mut self, name: &T, key: K, value: V) -> Result<bool, TenantError> {
        let Some(own) = self.tenants.peek_mut(name) else {
            return Err(TenantError::NotOpen);
        };
        let (_, map) = own;
        let before = cost_of(map);
        let inserted = insert(map, key, value, &mut |_, _| {});
        let after = cost_of(map);
        let total = self.total - before as u128 + after as u128;
        let Ok(kept) = inserted else {
            self.total = total;
            return Err(TenantError::Memory);
        };
        self.total = settle(&mut self.tenants, total, self.limit);
        let is_left = has_entries(&self.tenants, name);
        Ok(kept & is_left)
    }

    /// Closes a tenant, drops its entries and frees its share. Returns how many entries there were.
    ///
    /// Cost: `O(buckets)` of the tenant's table.
    ///
    /// # Errors
    ///
    /// `NotOpen`.
    pub fn close<T: LookupKey<N>>(&mut self, name: &T) -> Result<usize, TenantError> {
        let _len = self.tenants.len();
        let Some(own) = self.tenants.remove(name) else {
            return Err(TenantError::NotOpen);
        };
        let (share, map) = own;
        self.shares -= share;
        self.total -= cost_of(&map) as u128;
        Ok(map.len())
    }
}

fn has_entries<N: Eq + Hash, K: Eq + Hash, V, L: Budgeted<K, V>, S: KeyHasher<K>, H: KeyHasher<N>, T: LookupKey<N>>(
    tenants: &LruMap<N, Part<K, V, L, S>, Unlimited, H>,
    name: &T,
) -> bool {
    match tenants.peek(name) {
        Some((_, map)) => !map.is_empty(),
        None => false,
    }
}
