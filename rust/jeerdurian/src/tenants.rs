//! A cache for many tenants, each with a budget of its own.
//!
//! ```
//! use jeerdurian::tenants::{TenantCache, TenantError};
//!
//! # fn main() -> Result<(), TenantError> {
//! let mut cache: TenantCache<String, u64, String> = TenantCache::new();
//! cache.open("a.example".to_string(), 10)?;
//! cache.put("a.example", 1, "seven b".to_string())?;
//! cache.put("a.example", 2, "four".to_string())?; // 7 and 4 bytes are above the budget: entry 1 is evicted
//! assert_eq!(cache.get("a.example", &1), Ok(None));
//! assert_eq!(cache.cost("a.example"), Ok(4));
//! # Ok(())
//! # }
//! ```

mod budgets;
mod bytes;
mod counted;
mod entries;
mod pool;

pub use bytes::ByteTenants;
pub use counted::Counting;
pub use pool::TenantPool;

use crate::erased::lru_limits::Budgeted;
use crate::erased::lru_tenants as proved;
use crate::keys::Borrowed;
use crate::rattle_std::alloc::Global;
use crate::rattle_std::unwinding::if_unwound;
use crate::{ByCost, ByWeight, Costed, RandomState};
use core::borrow::Borrow;
use core::hash::{BuildHasher, Hash};

/// Why a call on a tenant failed.
///
/// ```
/// use jeerdurian::tenants::{TenantCache, TenantError};
///
/// let mut cache: TenantCache<u64, u64, u64> = TenantCache::new();
/// assert_eq!(cache.put(&1, 7, 2), Err(TenantError::NotOpen));
/// ```
pub use crate::erased::lru_tenants::TenantError;

/// An iterator over the entries of a tenant, newest first. Proved: it returns each entry once, in the order of use.
pub use crate::erased::ordered_table::Walk as Entries;

impl core::error::Error for TenantError {}

/// A limiter of a tenant. With [`ByCost`], an entry costs what its value costs. With [`ByWeight`], an entry costs what
/// its key and its value cost, plus a constant.
///
/// ```
/// use jeerdurian::ByWeight;
/// use jeerdurian::tenants::TenantCache;
///
/// let mut weighed: TenantCache<u64, u64, u64, ByWeight<16>> = TenantCache::new();
/// assert_eq!((weighed.open(1, 40), weighed.put(&1, 7, 2)), (Ok(()), Ok(true)));
/// assert_eq!(weighed.cost(&1), Ok(25));
/// ```
pub trait Budget<K: Eq + Hash, V>: Budgeted<K, V> {}

impl<K: Eq + Hash, V: Costed> Budget<K, V> for ByCost {}

impl<K: Eq + Hash + Costed, V: Costed, const OVERHEAD: u64> Budget<K, V> for ByWeight<OVERHEAD> {}

/// A cache for many tenants, each with a name. Each tenant has an LRU map, limited by a budget of its own.
///
/// The limiter `L` says what an entry costs (see [`Budget`]). The budgets of all tenants add up to at most the total
/// limit, if [`set_total_limit`](Self::set_total_limit) set one.
///
/// Proved: the cost of a tenant stays within its budget, and the sum of all costs within the total limit. Each call
/// finds its tenant as the previous call on this tenant left it. The proofs assume that a cost never changes while its
/// entry is stored.
///
/// In the examples of the calls, `cache` has one open tenant, 1, with a budget of 3 and the entry (7, 2).
pub struct TenantCache<N, K, V, L = ByCost, S = RandomState>
where
    N: Eq + Hash,
    K: Eq + Hash,
    L: Budget<K, V>,
    S: BuildHasher + Copy,
{
    cache: proved::TenantCache<N, K, V, L, S>,
}

impl<N, K, V, L, S> core::fmt::Debug for TenantCache<N, K, V, L, S>
where
    N: Eq + Hash,
    K: Eq + Hash,
    L: Budget<K, V>,
    S: BuildHasher + Copy,
{
    fn fmt(&self, f: &mut core::fmt::Formatter<'_>) -> core::fmt::Result {
        f.debug_struct("TenantCache").field("len", &self.len()).finish_non_exhaustive()
    }
}

#[cfg(feature = "runtime-rng")]
impl<N: Eq + Hash, K: Eq + Hash, V, L: Budget<K, V>> Default for TenantCache<N, K, V, L> {
    fn default() -> Self {
        Self::new()
    }
}

impl<N: Eq + Hash, K: Eq + Hash, V, L: Budget<K, V>> TenantCache<N, K, V, L> {
    /// Makes a cache without tenants and without a total limit, whose hashers have random seeds. Cost: `O(1)`, and no
    /// memory.
    ///
    /// ```
    /// # use jeerdurian::tenants::TenantCache;
    /// let cache: TenantCache<String, u64, u64> = TenantCache::new();
    /// assert!(cache.is_empty());
    /// ```
    #[cfg(feature = "runtime-rng")]
    pub fn new() -> Self {
        Self::with_hasher(RandomState::default())
    }

    /// Makes a cache as `new` does, whose hashers have these seeds. Equal seeds give equal hashes. Cost: as `new`.
    ///
    /// ```
    /// # use jeerdurian::tenants::TenantCache;
    /// let cache: TenantCache<String, u64, u64> = TenantCache::with_seed([1, 2, 3, 4]);
    /// assert!(cache.is_empty());
    /// ```
    pub fn with_seed(seed: [u64; 4]) -> Self {
        Self::with_hasher(RandomState::with_seeds(seed))
    }
}

impl<N, K, V, L, S> TenantCache<N, K, V, L, S>
where
    N: Eq + Hash,
    K: Eq + Hash,
    L: Budget<K, V>,
    S: BuildHasher + Copy,
{
    /// Makes a cache without tenants and without a total limit, with this hasher of names and keys. Cost: as `new`.
    ///
    /// Each tenant's map gets a copy of the hasher, so `S` must be `Copy`. [`RandomState`] is `Copy`, but std's
    /// `RandomState` and `BuildHasherDefault` are not.
    ///
    /// ```
    /// # use jeerdurian::{ByCost, RandomState, tenants::TenantCache};
    /// let hasher = RandomState::default();
    /// let cache: TenantCache<u64, u64, u64, ByCost, _> = TenantCache::with_hasher(hasher);
    /// assert!(cache.is_empty());
    /// ```
    pub fn with_hasher(hasher: S) -> Self {
        TenantCache { cache: proved::TenantCache::with_hasher(Global, hasher) }
    }

    /// Returns the number of open tenants. Cost: `O(1)`.
    ///
    /// ```
    /// # let mut cache = jeerdurian::tenants::TenantCache::<u64, u64, u64>::new();
    /// # cache.open(1, 3).unwrap();
    /// # cache.put(&1, 7, 2).unwrap();
    /// assert_eq!((cache.len(), cache.close(&1), cache.len()), (1, Ok(1), 0));
    /// ```
    pub fn len(&self) -> usize {
        self.cache.len()
    }

    /// Returns whether no tenant is open. Cost: `O(1)`.
    ///
    /// ```
    /// # let mut cache = jeerdurian::tenants::TenantCache::<u64, u64, u64>::new();
    /// # cache.open(1, 3).unwrap();
    /// # cache.put(&1, 7, 2).unwrap();
    /// assert!(!cache.is_empty());
    /// ```
    pub fn is_empty(&self) -> bool {
        self.cache.is_empty()
    }

    /// Opens a tenant with an empty map and a budget, which limits the sum of its entries' costs.
    ///
    /// Cost: `O(1)` expected, amortised over the tenants.
    ///
    /// # Errors
    ///
    /// `AlreadyOpen`; `OverTotal`: the sum of all budgets would be above the total limit; `Memory`: out of memory for one
    /// tenant more. An error changes nothing.
    ///
    /// ```
    /// # let mut cache = jeerdurian::tenants::TenantCache::<u64, u64, u64>::new();
    /// # cache.open(1, 3).unwrap();
    /// # cache.put(&1, 7, 2).unwrap();
    /// use jeerdurian::tenants::TenantError;
    ///
    /// assert_eq!(cache.open(2, 3), Ok(()));
    /// assert_eq!(cache.open(1, 5), Err(TenantError::AlreadyOpen));
    /// ```
    pub fn open(&mut self, name: N, budget: u64) -> Result<(), TenantError> {
        if_unwound(&mut self.cache, proved::TenantCache::sum_again, |cache| cache.open(name, budget))
    }

    /// Returns the number of a tenant's entries.
    ///
    /// Cost: `O(1)` expected.
    ///
    /// # Errors
    ///
    /// `NotOpen`.
    ///
    /// ```
    /// # let mut cache = jeerdurian::tenants::TenantCache::<u64, u64, u64>::new();
    /// # cache.open(1, 3).unwrap();
    /// # cache.put(&1, 7, 2).unwrap();
    /// assert_eq!(cache.entries(&1), Ok(1));
    /// ```
    pub fn entries<T>(&self, name: &T) -> Result<usize, TenantError>
    where
        N: Borrow<T>,
        T: Eq + Hash + ?Sized,
    {
        self.cache.entries(&Borrowed(name))
    }

    /// Returns the sum of the costs of a tenant's entries.
    ///
    /// Cost: `O(1)` expected.
    ///
    /// # Errors
    ///
    /// `NotOpen`.
    ///
    /// ```
    /// # let mut cache = jeerdurian::tenants::TenantCache::<u64, u64, u64>::new();
    /// # cache.open(1, 3).unwrap();
    /// # cache.put(&1, 7, 2).unwrap();
    /// assert_eq!(cache.cost(&1), Ok(2));
    /// ```
    pub fn cost<T>(&self, name: &T) -> Result<u64, TenantError>
    where
        N: Borrow<T>,
        T: Eq + Hash + ?Sized,
    {
        self.cache.cost(&Borrowed(name))
    }

    /// Returns the names of the open tenants, in any order. Cost: `O(1)`, and `O(1)` for each name.
    ///
    /// ```
    /// # let mut cache = jeerdurian::tenants::TenantCache::<u64, u64, u64>::new();
    /// # cache.open(1, 3).unwrap();
    /// # cache.put(&1, 7, 2).unwrap();
    /// assert!(cache.names().eq([&1]));
    /// ```
    pub fn names(&self) -> impl ExactSizeIterator<Item = &N> {
        self.cache.names()
    }

    /// Closes a tenant and drops its entries. Returns the number of these entries.
    ///
    /// Cost: `O(buckets)` of the tenant's table.
    ///
    /// # Errors
    ///
    /// `NotOpen`: nothing has changed.
    ///
    /// ```
    /// # let mut cache = jeerdurian::tenants::TenantCache::<u64, u64, u64>::new();
    /// # cache.open(1, 3).unwrap();
    /// # cache.put(&1, 7, 2).unwrap();
    /// assert_eq!((cache.close(&1), cache.len()), (Ok(1), 0));
    /// ```
    pub fn close<T>(&mut self, name: &T) -> Result<usize, TenantError>
    where
        N: Borrow<T>,
        T: Eq + Hash + ?Sized,
    {
        if_unwound(&mut self.cache, proved::TenantCache::sum_again, |cache| cache.close(&Borrowed(name)))
    }

    /// Closes a tenant as [`close`](Self::close) does, and passes each entry to the callback, oldest first.
    ///
    /// Cost: `O(1)` and one call of the callback for each entry.
    ///
    /// # Errors
    ///
    /// `NotOpen`: nothing has changed.
    ///
    /// ```
    /// # let mut cache = jeerdurian::tenants::TenantCache::<u64, u64, u64>::new();
    /// # cache.open(1, 3).unwrap();
    /// # cache.put(&1, 7, 2).unwrap();
    /// let mut last = 0;
    /// assert_eq!(cache.close_with(&1, |key, _| last = key), Ok(1));
    /// assert_eq!(last, 7);
    /// ```
    pub fn close_with<T>(&mut self, name: &T, mut lost: impl FnMut(K, V)) -> Result<usize, TenantError>
    where
        N: Borrow<T>,
        T: Eq + Hash + ?Sized,
    {
        if_unwound(&mut self.cache, proved::TenantCache::sum_again, |cache| {
            cache.close_with(&Borrowed(name), &mut lost)
        })
    }
}
