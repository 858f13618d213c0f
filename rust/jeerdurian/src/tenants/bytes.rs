//! One limit for the bytes of all tenants.

use super::TenantError;
use crate::erased::lru_tenants as proved;
use crate::keys::Borrowed;
use crate::rattle_std::alloc::Global;
use crate::{OwnedBytes, RandomState};
use core::borrow::Borrow;
use core::hash::{BuildHasher, Hash};

/// A cache for many tenants within one limit of bytes. The bytes are the table of tenants, their names, their tables,
/// and what their entries own.
///
/// Each tenant has its own limit, which its map keeps as under [`ByBytes`](crate::ByBytes). While a table grows, the old
/// table is not counted. The calls do what the calls of a [`TenantCache`](super::TenantCache) do.
///
/// ```
/// use jeerdurian::tenants::{ByteTenants, TenantError};
///
/// let mut bytes: ByteTenants<u64, u64, u64> = ByteTenants::new(4000);
/// assert_eq!((bytes.open(1, 500), bytes.put(&1, 7, 2)), (Ok(()), Ok(true)));
/// assert_eq!(bytes.get(&1, &7), Ok(Some(&2)));
/// assert_eq!(bytes.open(2, 3500), Err(TenantError::OverTotal));
/// ```
pub struct ByteTenants<N, K, V, S = RandomState>
where
    N: Eq + Hash + OwnedBytes,
    K: Eq + Hash + OwnedBytes,
    V: OwnedBytes,
    S: BuildHasher + Copy,
{
    bytes: proved::ByteTenants<N, K, V, S>,
}

impl<N, K, V, S> core::fmt::Debug for ByteTenants<N, K, V, S>
where
    N: Eq + Hash + OwnedBytes,
    K: Eq + Hash + OwnedBytes,
    V: OwnedBytes,
    S: BuildHasher + Copy,
{
    fn fmt(&self, f: &mut core::fmt::Formatter<'_>) -> core::fmt::Result {
        f.debug_struct("ByteTenants").field("len", &self.len()).finish_non_exhaustive()
    }
}

impl<N: Eq + Hash + OwnedBytes, K: Eq + Hash + OwnedBytes, V: OwnedBytes> ByteTenants<N, K, V> {
    /// Makes a cache without tenants, whose hashers have random seeds. Cost: `O(1)`, and no memory.
    #[cfg(feature = "runtime-rng")]
    pub fn new(limit: u64) -> Self {
        Self::with_hasher(RandomState::default(), limit)
    }
}

impl<N, K, V, S> ByteTenants<N, K, V, S>
where
    N: Eq + Hash + OwnedBytes,
    K: Eq + Hash + OwnedBytes,
    V: OwnedBytes,
    S: BuildHasher + Copy,
{
    /// Makes a cache without tenants, with this hasher of names and keys. Cost: `O(1)`, and no memory.
    ///
    /// Each tenant's map gets a copy of the hasher, so `S` must be `Copy`. [`RandomState`] is `Copy`, but std's
    /// `RandomState` and `BuildHasherDefault` are not.
    pub fn with_hasher(hasher: S, limit: u64) -> Self {
        ByteTenants { bytes: proved::ByteTenants::with_hasher(Global, hasher, limit) }
    }

    /// Returns the number of open tenants. Cost: `O(1)`.
    pub fn len(&self) -> usize {
        self.bytes.len()
    }

    /// Returns whether no tenant is open. Cost: `O(1)`.
    pub fn is_empty(&self) -> bool {
        self.bytes.len() == 0
    }

    /// Returns the limit of all bytes. Cost: `O(1)`.
    pub fn limit(&self) -> u64 {
        self.bytes.limit()
    }

    /// Returns how many bytes are left for the limit and the name of one more tenant, if the table of tenants does not
    /// grow. Cost: `O(1)`.
    pub fn left(&self) -> u64 {
        self.bytes.left()
    }

    /// Opens a tenant with an empty map, and reserves its limit until it is closed. Cost: `O(1)` expected, amortised
    /// over the tenants.
    ///
    /// # Errors
    ///
    /// The tenants are unchanged. `AlreadyOpen`, or `OverTotal`: the limit and the bytes of the name are above
    /// [`left`](Self::left). `Memory`: a larger table of tenants is needed, but memory or the limit does not permit
    /// this table, or not the tenant in it. After `Memory` the table may be larger, so `left` may be lower.
    pub fn open(&mut self, name: N, limit: u64) -> Result<(), TenantError> {
        self.bytes.open(name, limit)
    }

    /// Inserts a key with a value. Returns whether the key is there then. Cost: `O(1)` expected, amortised over the
    /// puts.
    ///
    /// # Errors
    ///
    /// `NotOpen` or `Memory`.
    pub fn put<T>(&mut self, name: &T, key: K, value: V) -> Result<bool, TenantError>
    where
        N: Borrow<T>,
        T: Eq + Hash + ?Sized,
    {
        self.bytes.put(&Borrowed(name), key, value)
    }

    /// Returns a tenant's value of a key, and makes its entry the tenant's newest. Cost: `O(1)` expected.
    ///
    /// # Errors
    ///
    /// `NotOpen`.
    pub fn get<T, Q>(&mut self, name: &T, key: &Q) -> Result<Option<&V>, TenantError>
    where
        N: Borrow<T>,
        T: Eq + Hash + ?Sized,
        K: Borrow<Q>,
        Q: Eq + Hash + ?Sized,
    {
        self.bytes.get(&Borrowed(name), &Borrowed(key))
    }

    /// Returns a tenant's value of a key. The order stays. Cost: `O(1)` expected.
    ///
    /// # Errors
    ///
    /// `NotOpen`.
    pub fn peek<T, Q>(&self, name: &T, key: &Q) -> Result<Option<&V>, TenantError>
    where
        N: Borrow<T>,
        T: Eq + Hash + ?Sized,
        K: Borrow<Q>,
        Q: Eq + Hash + ?Sized,
    {
        self.bytes.peek(&Borrowed(name), &Borrowed(key))
    }

    /// Removes a key of a tenant. Returns its value. Cost: `O(1)` expected.
    ///
    /// # Errors
    ///
    /// `NotOpen`.
    pub fn remove<T, Q>(&mut self, name: &T, key: &Q) -> Result<Option<V>, TenantError>
    where
        N: Borrow<T>,
        T: Eq + Hash + ?Sized,
        K: Borrow<Q>,
        Q: Eq + Hash + ?Sized,
    {
        self.bytes.remove(&Borrowed(name), &Borrowed(key))
    }

    /// Closes a tenant and drops its entries. Returns the number of these entries. Cost: `O(buckets)` of the tenant's
    /// table.
    ///
    /// # Errors
    ///
    /// `NotOpen`.
    pub fn close<T>(&mut self, name: &T) -> Result<usize, TenantError>
    where
        N: Borrow<T>,
        T: Eq + Hash + ?Sized,
    {
        self.bytes.close(&Borrowed(name))
    }
}
