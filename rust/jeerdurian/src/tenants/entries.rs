//! The calls on the entries of a tenant.

use super::{Budget, Entries, TenantCache, TenantError};
use crate::Inserted;
use crate::keys::Borrowed;
use core::borrow::Borrow;
use core::hash::{BuildHasher, Hash};

impl<N, K, V, L, S> TenantCache<N, K, V, L, S>
where
    N: Eq + Hash,
    K: Eq + Hash,
    L: Budget<K, V>,
    S: BuildHasher + Copy,
{
    /// Inserts a key with a value, as the newest entry of the tenant. Returns whether the key is there then.
    ///
    /// An entry that alone costs more than the budget, or that would take the tenant's total past `u64::MAX`, is rejected.
    /// Otherwise the tenant's oldest entries are evicted until the total is within the budget. If the key is there and the
    /// new value is rejected, its entry is removed.
    ///
    /// Cost: `O(1)` expected, amortised over the inserts.
    ///
    /// # Errors
    ///
    /// `NotOpen`: nothing has changed. `Memory`: out of memory for the entry, which is not there then.
    ///
    /// ```
    /// # let mut cache = jeerdurian::tenants::TenantCache::<u64, u64, u64>::new();
    /// # cache.open(1, 3).unwrap();
    /// # cache.put(&1, 7, 2).unwrap();
    /// assert_eq!(cache.put(&1, 8, 1), Ok(true));
    /// assert_eq!(cache.put(&1, 9, 4), Ok(false));
    /// ```
    pub fn put<T>(&mut self, name: &T, key: K, value: V) -> Result<bool, TenantError>
    where
        N: Borrow<T>,
        T: Eq + Hash + ?Sized,
    {
        self.cache.put(&Borrowed(name), key, value)
    }

    /// Inserts as [`put`](Self::put) does, and passes the evicted entries to the callback, oldest first. If the new
    /// value of a stored key is rejected, the callback gets the removed entry. If the new entry cannot be stored, the
    /// callback gets it.
    ///
    /// Cost: as `put`, plus the calls of the callback.
    ///
    /// # Errors
    ///
    /// As for `put`.
    ///
    /// ```
    /// # let mut cache = jeerdurian::tenants::TenantCache::<u64, u64, u64>::new();
    /// # cache.open(1, 3).unwrap();
    /// # cache.put(&1, 7, 2).unwrap();
    /// let mut left = 0;
    /// assert_eq!(cache.put_with(&1, 8, 3, |key, _| left = key), Ok(true));
    /// assert_eq!(left, 7);
    /// ```
    pub fn put_with<T>(&mut self, name: &T, key: K, value: V, mut lost: impl FnMut(K, V)) -> Result<bool, TenantError>
    where
        N: Borrow<T>,
        T: Eq + Hash + ?Sized,
    {
        self.cache.put_with(&Borrowed(name), key, value, &mut lost)
    }

    /// Inserts as [`put_with`](Self::put_with) does, and also returns the value that the tenant does not keep: the
    /// replaced value, or the new value if it is rejected.
    ///
    /// If the new entry of an absent key is rejected, `kept` is false, `unkept` is the given value, the tenant stays as
    /// it is, the callback gets nothing, and the key is dropped. If the key was there and is not kept, the callback got
    /// the key's entry, with the old value if the new value was rejected.
    ///
    /// Cost: as `put_with`.
    ///
    /// # Errors
    ///
    /// As for `put`. After `NotOpen` the key and the value are dropped; after `Memory` the callback got them.
    ///
    /// ```
    /// # let mut cache = jeerdurian::tenants::TenantCache::<u64, u64, u64>::new();
    /// # cache.open(1, 3).unwrap();
    /// # cache.put(&1, 7, 2).unwrap();
    /// let replaced = cache.put_full(&1, 7, 3, |_, _| {}).unwrap();
    /// assert_eq!((replaced.kept, replaced.unkept), (true, Some(2)));
    /// let rejected = cache.put_full(&1, 8, 9, |_, _| unreachable!()).unwrap();
    /// assert_eq!((rejected.kept, rejected.unkept), (false, Some(9)));
    /// ```
    pub fn put_full<T>(
        &mut self,
        name: &T,
        key: K,
        value: V,
        mut lost: impl FnMut(K, V),
    ) -> Result<Inserted<V>, TenantError>
    where
        N: Borrow<T>,
        T: Eq + Hash + ?Sized,
    {
        self.cache.put_full(&Borrowed(name), key, value, &mut lost)
    }

    /// Returns a tenant's value of a key, and makes its entry the tenant's newest.
    ///
    /// Cost: `O(1)` expected.
    ///
    /// # Errors
    ///
    /// `NotOpen`: nothing has changed.
    ///
    /// ```
    /// # let mut cache = jeerdurian::tenants::TenantCache::<u64, u64, u64>::new();
    /// # cache.open(1, 3).unwrap();
    /// # cache.put(&1, 7, 2).unwrap();
    /// assert_eq!(cache.get(&1, &7), Ok(Some(&2)));
    /// ```
    pub fn get<T, Q>(&mut self, name: &T, key: &Q) -> Result<Option<&V>, TenantError>
    where
        N: Borrow<T>,
        T: Eq + Hash + ?Sized,
        K: Borrow<Q>,
        Q: Eq + Hash + ?Sized,
    {
        self.cache.get(&Borrowed(name), &Borrowed(key))
    }

    /// Returns a tenant's value of a key. If the key is not there, inserts it with the value that the closure returns.
    ///
    /// Returns `None` if the new entry is not there afterwards, as `put` returns `false`.
    ///
    /// Cost: as `get` if the key is there, else as `put`.
    ///
    /// # Errors
    ///
    /// As for `put`. If the error is `Memory`, the closure was called.
    ///
    /// ```
    /// # let mut cache = jeerdurian::tenants::TenantCache::<u64, u64, u64>::new();
    /// # cache.open(1, 3).unwrap();
    /// # cache.put(&1, 7, 2).unwrap();
    /// assert_eq!(cache.get_or_put(&1, 7, || 3), Ok(Some(&2)));
    /// assert_eq!(cache.get_or_put(&1, 8, || 1), Ok(Some(&1)));
    /// ```
    pub fn get_or_put<T>(&mut self, name: &T, key: K, make: impl FnOnce() -> V) -> Result<Option<&V>, TenantError>
    where
        N: Borrow<T>,
        T: Eq + Hash + ?Sized,
    {
        self.cache.get_or_put(&Borrowed(name), key, make)
    }

    /// Returns a tenant's value of a key. The order of use stays.
    ///
    /// Cost: `O(1)` expected.
    ///
    /// # Errors
    ///
    /// `NotOpen`.
    ///
    /// ```
    /// # let mut cache = jeerdurian::tenants::TenantCache::<u64, u64, u64>::new();
    /// # cache.open(1, 3).unwrap();
    /// # cache.put(&1, 7, 2).unwrap();
    /// assert_eq!(cache.peek(&1, &7), Ok(Some(&2)));
    /// ```
    pub fn peek<T, Q>(&self, name: &T, key: &Q) -> Result<Option<&V>, TenantError>
    where
        N: Borrow<T>,
        T: Eq + Hash + ?Sized,
        K: Borrow<Q>,
        Q: Eq + Hash + ?Sized,
    {
        self.cache.peek(&Borrowed(name), &Borrowed(key))
    }

    /// Returns whether a tenant has an entry of a key. The order of use stays.
    ///
    /// Cost: `O(1)` expected.
    ///
    /// # Errors
    ///
    /// `NotOpen`.
    ///
    /// ```
    /// # let mut cache = jeerdurian::tenants::TenantCache::<u64, u64, u64>::new();
    /// # cache.open(1, 3).unwrap();
    /// # cache.put(&1, 7, 2).unwrap();
    /// assert_eq!(cache.contains(&1, &7), Ok(true));
    /// ```
    pub fn contains<T, Q>(&self, name: &T, key: &Q) -> Result<bool, TenantError>
    where
        N: Borrow<T>,
        T: Eq + Hash + ?Sized,
        K: Borrow<Q>,
        Q: Eq + Hash + ?Sized,
    {
        self.cache.contains(&Borrowed(name), &Borrowed(key))
    }

    /// Removes a key of a tenant, and returns its value. The tenant's other entries keep their order.
    ///
    /// Cost: `O(1)` expected.
    ///
    /// # Errors
    ///
    /// `NotOpen`: nothing has changed.
    ///
    /// ```
    /// # let mut cache = jeerdurian::tenants::TenantCache::<u64, u64, u64>::new();
    /// # cache.open(1, 3).unwrap();
    /// # cache.put(&1, 7, 2).unwrap();
    /// assert_eq!((cache.remove(&1, &7), cache.remove(&1, &7)), (Ok(Some(2)), Ok(None)));
    /// ```
    pub fn remove<T, Q>(&mut self, name: &T, key: &Q) -> Result<Option<V>, TenantError>
    where
        N: Borrow<T>,
        T: Eq + Hash + ?Sized,
        K: Borrow<Q>,
        Q: Eq + Hash + ?Sized,
    {
        self.cache.remove(&Borrowed(name), &Borrowed(key))
    }

    /// Returns an iterator over a tenant's entries, newest first. The order of use stays.
    ///
    /// Cost: `O(1)` expected, and `O(1)` for each step from either end.
    ///
    /// # Errors
    ///
    /// `NotOpen`.
    ///
    /// ```
    /// # let mut cache = jeerdurian::tenants::TenantCache::<u64, u64, u64>::new();
    /// # cache.open(1, 3).unwrap();
    /// # cache.put(&1, 7, 2).unwrap();
    /// assert!(cache.iter(&1).unwrap().eq([(&7, &2)]));
    /// ```
    pub fn iter<T>(&self, name: &T) -> Result<Entries<'_, K, V, L::LinkType>, TenantError>
    where
        N: Borrow<T>,
        T: Eq + Hash + ?Sized,
    {
        self.cache.iter(&Borrowed(name))
    }

    /// Removes a tenant's entries for which the closure returns false. Calls the closure with each entry, oldest first.
    ///
    /// Cost: `O(n)` for n entries of the tenant.
    ///
    /// # Errors
    ///
    /// `NotOpen`: nothing has changed.
    ///
    /// ```
    /// # let mut cache = jeerdurian::tenants::TenantCache::<u64, u64, u64>::new();
    /// # cache.open(1, 3).unwrap();
    /// # cache.put(&1, 7, 2).unwrap();
    /// assert_eq!((cache.put(&1, 8, 1), cache.retain(&1, |key, _| *key == 8)), (Ok(true), Ok(())));
    /// assert_eq!((cache.contains(&1, &7), cache.cost(&1)), (Ok(false), Ok(1)));
    /// ```
    pub fn retain<T>(&mut self, name: &T, keep: impl FnMut(&K, &V) -> bool) -> Result<(), TenantError>
    where
        N: Borrow<T>,
        T: Eq + Hash + ?Sized,
    {
        self.cache.retain(&Borrowed(name), keep)
    }

    /// Drops the entries of a tenant, which stays open.
    ///
    /// Cost: as [`LruMap::clear`](crate::LruMap::clear).
    ///
    /// # Errors
    ///
    /// `NotOpen`: nothing has changed.
    ///
    /// ```
    /// # let mut cache = jeerdurian::tenants::TenantCache::<u64, u64, u64>::new();
    /// # cache.open(1, 3).unwrap();
    /// # cache.put(&1, 7, 2).unwrap();
    /// assert_eq!((cache.clear(&1), cache.entries(&1), cache.cost(&1)), (Ok(()), Ok(0), Ok(0)));
    /// ```
    pub fn clear<T>(&mut self, name: &T) -> Result<(), TenantError>
    where
        N: Borrow<T>,
        T: Eq + Hash + ?Sized,
    {
        self.cache.clear(&Borrowed(name))
    }
}
