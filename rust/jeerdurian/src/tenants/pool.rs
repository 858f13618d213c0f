//! A pool of tenants, which share one limit.

use super::{Budget, TenantError};
use crate::erased::lru_tenants as proved;
use crate::keys::Borrowed;
use crate::rattle_std::alloc::Global;
use crate::rattle_std::unwinding::if_unwound;
use crate::{ByCost, RandomState};
use core::borrow::Borrow;
use core::hash::{BuildHasher, Hash};

/// A cache for many tenants that share one limit. Each tenant has its own share of the limit. Any tenant may use the
/// rest.
///
/// The limiter `L` says what an entry costs (see [`Budget`]). While a [`put`](Self::put) leaves the total above the
/// limit, the pool evicts the oldest entry of the tenant that is furthest above its share. This may be the tenant of
/// the `put`.
///
/// Proved of the sources: the total of all costs stays within the limit. While a tenant's cost is within its share, no
/// call of another tenant changes the tenant. The proofs assume that a cost never changes while its entry is stored.
///
/// ```
/// use jeerdurian::tenants::TenantPool;
///
/// let mut pool: TenantPool<u64, u64, u64> = TenantPool::new(5);
/// assert_eq!((pool.open(1, 3), pool.open(2, 1)), (Ok(()), Ok(())));
/// assert_eq!((pool.put(&1, 7, 2), pool.put(&2, 8, 3)), (Ok(true), Ok(true)));
/// assert_eq!((pool.put(&1, 9, 1), pool.cost(&2), pool.cost(&1)), (Ok(true), Ok(0), Ok(3)));
/// ```
pub struct TenantPool<N, K, V, L = ByCost, S = RandomState>
where
    N: Eq + Hash,
    K: Eq + Hash,
    L: Budget<K, V>,
    S: BuildHasher + Copy,
{
    pool: proved::TenantPool<N, K, V, L, S>,
}

impl<N, K, V, L, S> core::fmt::Debug for TenantPool<N, K, V, L, S>
where
    N: Eq + Hash,
    K: Eq + Hash,
    L: Budget<K, V>,
    S: BuildHasher + Copy,
{
    fn fmt(&self, f: &mut core::fmt::Formatter<'_>) -> core::fmt::Result {
        f.debug_struct("TenantPool").field("len", &self.len()).finish_non_exhaustive()
    }
}

impl<N: Eq + Hash, K: Eq + Hash, V, L: Budget<K, V>> TenantPool<N, K, V, L> {
    /// Makes a pool without tenants, whose hashers have random seeds. Cost: `O(1)`, and no memory.
    ///
    /// ```
    /// # use jeerdurian::tenants::TenantPool;
    /// let pool: TenantPool<String, u64, u64> = TenantPool::new(5);
    /// assert!(pool.is_empty());
    /// ```
    #[cfg(feature = "runtime-rng")]
    pub fn new(limit: u64) -> Self {
        Self::with_hasher(RandomState::default(), limit)
    }
}

impl<N, K, V, L, S> TenantPool<N, K, V, L, S>
where
    N: Eq + Hash,
    K: Eq + Hash,
    L: Budget<K, V>,
    S: BuildHasher + Copy,
{
    /// Makes a pool without tenants, with this hasher of names and keys. Cost: `O(1)`, and no memory.
    ///
    /// Each tenant's map gets a copy of the hasher, so `S` must be `Copy`. [`RandomState`] is `Copy`, but std's
    /// `RandomState` and `BuildHasherDefault` are not.
    ///
    /// ```
    /// # use jeerdurian::{ByCost, RandomState, tenants::TenantPool};
    /// let pool: TenantPool<u64, u64, u64, ByCost, _> = TenantPool::with_hasher(RandomState::default(), 5);
    /// assert_eq!((pool.limit(), pool.total_cost()), (5, 0));
    /// ```
    pub fn with_hasher(hasher: S, limit: u64) -> Self {
        TenantPool { pool: proved::TenantPool::with_hasher(Global, hasher, limit) }
    }

    /// Returns the number of open tenants. Cost: `O(1)`.
    pub fn len(&self) -> usize {
        self.pool.len()
    }

    /// Returns whether no tenant is open. Cost: `O(1)`.
    pub fn is_empty(&self) -> bool {
        self.pool.is_empty()
    }

    /// Returns the limit of the sum of all entries' costs. Cost: `O(1)`.
    pub fn limit(&self) -> u64 {
        self.pool.limit()
    }

    /// Returns the sum of the costs of the entries of all tenants. Cost: `O(1)`.
    pub fn total_cost(&self) -> u128 {
        self.pool.total_cost()
    }

    /// Opens a tenant with an empty map and its own share of the limit.
    ///
    /// Cost: `O(1)` expected, amortised over the tenants.
    ///
    /// # Errors
    ///
    /// `AlreadyOpen`; `OverTotal`: the shares of all tenants would add up to more than the limit; `Memory`: out of memory
    /// for one tenant more. An error changes nothing.
    pub fn open(&mut self, name: N, share: u64) -> Result<(), TenantError> {
        if_unwound(&mut self.pool, proved::TenantPool::sum_again, |pool| pool.open(name, share))
    }

    /// Inserts a key with a value, as the newest entry of the tenant. Returns whether the key is there then.
    ///
    /// Rejects an entry that alone costs more than the limit. While the total is above the limit, the tenant furthest
    /// above its share loses its oldest entry, perhaps the new entry.
    ///
    /// Cost: `O(1)` expected, amortised over the inserts, and `O(1)` for each tenant at each eviction.
    ///
    /// # Errors
    ///
    /// `NotOpen`: nothing has changed. `Memory`: out of memory for the entry, so the key is not there.
    pub fn put<T>(&mut self, name: &T, key: K, value: V) -> Result<bool, TenantError>
    where
        N: Borrow<T>,
        T: Eq + Hash + ?Sized,
    {
        if_unwound(&mut self.pool, proved::TenantPool::sum_again, |pool| pool.put(&Borrowed(name), key, value))
    }

    /// Returns a tenant's value of a key, and makes its entry the tenant's newest. Cost: `O(1)` expected.
    ///
    /// # Errors
    ///
    /// `NotOpen`: nothing has changed.
    pub fn get<T, Q>(&mut self, name: &T, key: &Q) -> Result<Option<&V>, TenantError>
    where
        N: Borrow<T>,
        T: Eq + Hash + ?Sized,
        K: Borrow<Q>,
        Q: Eq + Hash + ?Sized,
    {
        self.pool.get(&Borrowed(name), &Borrowed(key))
    }

    /// Returns a tenant's value of a key. The order stays. Cost: `O(1)` expected.
    ///
    /// # Errors
    ///
    /// `NotOpen`.
    pub fn peek<T, Q>(&self, name: &T, key: &Q) -> Result<Option<&V>, TenantError>
    where
        N: Borrow<T>,
        T: Eq + Hash + ?Sized,
        K: Borrow<Q>,
        Q: Eq + Hash + ?Sized,
    {
        self.pool.peek(&Borrowed(name), &Borrowed(key))
    }

    /// Returns whether a tenant has an entry of a key. The order stays. Cost: `O(1)` expected.
    ///
    /// # Errors
    ///
    /// `NotOpen`.
    pub fn contains<T, Q>(&self, name: &T, key: &Q) -> Result<bool, TenantError>
    where
        N: Borrow<T>,
        T: Eq + Hash + ?Sized,
        K: Borrow<Q>,
        Q: Eq + Hash + ?Sized,
    {
        self.pool.contains(&Borrowed(name), &Borrowed(key))
    }

    /// Removes a key of a tenant. Returns its value. Cost: `O(1)` expected.
    ///
    /// # Errors
    ///
    /// `NotOpen`: nothing has changed.
    pub fn remove<T, Q>(&mut self, name: &T, key: &Q) -> Result<Option<V>, TenantError>
    where
        N: Borrow<T>,
        T: Eq + Hash + ?Sized,
        K: Borrow<Q>,
        Q: Eq + Hash + ?Sized,
    {
        if_unwound(&mut self.pool, proved::TenantPool::sum_again, |pool| pool.remove(&Borrowed(name), &Borrowed(key)))
    }

    /// Returns the sum of the costs of a tenant's entries. Cost: `O(1)` expected.
    ///
    /// # Errors
    ///
    /// `NotOpen`.
    pub fn cost<T>(&self, name: &T) -> Result<u64, TenantError>
    where
        N: Borrow<T>,
        T: Eq + Hash + ?Sized,
    {
        self.pool.cost(&Borrowed(name))
    }

    /// Returns the share of a tenant. Cost: `O(1)` expected.
    ///
    /// # Errors
    ///
    /// `NotOpen`.
    pub fn share<T>(&self, name: &T) -> Result<u64, TenantError>
    where
        N: Borrow<T>,
        T: Eq + Hash + ?Sized,
    {
        self.pool.share(&Borrowed(name))
    }

    /// Closes a tenant and drops its entries. Returns the number of these entries. Its share is free then.
    ///
    /// Cost: `O(buckets)` of the tenant's table.
    ///
    /// # Errors
    ///
    /// `NotOpen`: nothing has changed.
    pub fn close<T>(&mut self, name: &T) -> Result<usize, TenantError>
    where
        N: Borrow<T>,
        T: Eq + Hash + ?Sized,
    {
        if_unwound(&mut self.pool, proved::TenantPool::sum_again, |pool| pool.close(&Borrowed(name)))
    }
}
