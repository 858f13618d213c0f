//! Counts of each tenant.

use super::{Budget, TenantCache, TenantError};
use crate::caches::Counts;

/// A limiter of a tenant that also counts.
///
/// ```
/// use jeerdurian::ByCost;
/// use jeerdurian::tenants::{Counting, TenantCache};
///
/// let mut cache: TenantCache<u64, u64, u64, Counting<ByCost>> = TenantCache::new();
/// assert_eq!((cache.open(1, 3), cache.put_counted(&1, 7, 2)), (Ok(()), Ok(true)));
/// assert_eq!(cache.counts(&1).map(|it| it.insertions), Ok(1));
/// ```
pub use crate::erased::lru_tenants::Counting;
use crate::keys::Borrowed;
use core::borrow::Borrow;
use core::hash::{BuildHasher, Hash};

impl<K: Eq + Hash, V, L: Budget<K, V>> Budget<K, V> for Counting<L> {}

/// Calls that count, for a cache over [`Counting`]. Other calls change no count.
///
/// Proved of the sources: a counted call does what the call of the same name without `_counted` does, and counts
/// exactly, up to `u64::MAX`. It changes no count of another tenant.
///
/// ```
/// use jeerdurian::ByCost;
/// use jeerdurian::tenants::{Counting, TenantCache};
///
/// let mut cache: TenantCache<&str, u64, u64, Counting<ByCost>> = TenantCache::new();
/// assert_eq!((cache.open("a", 3), cache.open("b", 3)), (Ok(()), Ok(())));
/// assert_eq!((cache.put_counted("a", 7, 2), cache.put_counted("a", 8, 2)), (Ok(true), Ok(true)));
/// assert_eq!(cache.get_counted("a", &7), Ok(None));
/// assert_eq!(cache.get_or_put_counted("a", 8, || 3), Ok(Some(&2)));
/// let counts = cache.take_counts("a").unwrap();
/// assert_eq!((counts.hits, counts.misses, counts.insertions, counts.evictions), (1, 1, 2, 1));
/// assert_eq!(cache.counts("a"), cache.counts("b"));
/// ```
impl<N, K, V, L, S> TenantCache<N, K, V, Counting<L>, S>
where
    N: Eq + Hash,
    K: Eq + Hash,
    L: Budget<K, V>,
    S: BuildHasher + Copy,
{
    /// Returns the counts of a tenant since it was opened, or since its last `take_counts`. Cost: `O(1)` expected.
    ///
    /// # Errors
    ///
    /// `NotOpen`.
    pub fn counts<T>(&self, name: &T) -> Result<Counts, TenantError>
    where
        N: Borrow<T>,
        T: Eq + Hash + ?Sized,
    {
        self.cache.counts(&Borrowed(name))
    }

    /// Sets the counts of a tenant. So you can count other calls by the methods of [`Counts`]. Cost: `O(1)` expected.
    ///
    /// # Errors
    ///
    /// `NotOpen`.
    pub fn set_counts<T>(&mut self, name: &T, counts: Counts) -> Result<(), TenantError>
    where
        N: Borrow<T>,
        T: Eq + Hash + ?Sized,
    {
        self.cache.set_counts(&Borrowed(name), counts)
    }

    /// Returns the counts of a tenant, and resets them to zero. Cost: `O(1)` expected.
    ///
    /// # Errors
    ///
    /// `NotOpen`.
    pub fn take_counts<T>(&mut self, name: &T) -> Result<Counts, TenantError>
    where
        N: Borrow<T>,
        T: Eq + Hash + ?Sized,
    {
        self.cache.take_counts(&Borrowed(name))
    }

    /// Does what `get` does, and counts a hit or a miss. Cost: `O(1)` expected.
    ///
    /// # Errors
    ///
    /// `NotOpen`.
    pub fn get_counted<T, Q>(&mut self, name: &T, key: &Q) -> Result<Option<&V>, TenantError>
    where
        N: Borrow<T>,
        T: Eq + Hash + ?Sized,
        K: Borrow<Q>,
        Q: Eq + Hash + ?Sized,
    {
        self.cache.get_counted(&Borrowed(name), &Borrowed(key))
    }

    /// Does what `put` does, and counts an insertion or a rejection, and the evictions. Cost: as `put`, plus a search.
    ///
    /// # Errors
    ///
    /// As for `put`. The evicted entries are counted.
    pub fn put_counted<T>(&mut self, name: &T, key: K, value: V) -> Result<bool, TenantError>
    where
        N: Borrow<T>,
        T: Eq + Hash + ?Sized,
    {
        self.cache.put_counted(&Borrowed(name), key, value)
    }

    /// Does what `get_or_put` does. Counts a hit, or counts a miss and what `put_counted` counts.
    ///
    /// Cost: as `get` if the key is there, else as `put_counted`.
    ///
    /// # Errors
    ///
    /// As for `put`. If the error is `Memory`, the closure was called, and the miss and the evicted entries are
    /// counted.
    pub fn get_or_put_counted<T>(
        &mut self,
        name: &T,
        key: K,
        make: impl FnOnce() -> V,
    ) -> Result<Option<&V>, TenantError>
    where
        N: Borrow<T>,
        T: Eq + Hash + ?Sized,
    {
        self.cache.get_or_put_counted(&Borrowed(name), key, make)
    }
}
