//! Forms of the calls that take memory, which return an error when it runs out.

use crate::erased::lru_limits::KeyHasher;
use crate::keys::{Named, Offered};
use crate::limiter::Limiter;
use crate::map::LruMap;
use crate::rattle_std::alloc::AllocError;
use crate::{GetOrInsertError, Inserted, ReserveError};
use core::hash::{BuildHasher, Hash};

impl core::error::Error for ReserveError {}

impl<E: core::error::Error> core::error::Error for GetOrInsertError<E> {}

/// Ends the program, because there is no memory for entries.
#[cold]
pub(crate) fn out_of_memory<K, V>() -> ! {
    alloc::alloc::handle_alloc_error(core::alloc::Layout::new::<(K, V)>())
}

/// Drops what an insert evicts, the key first.
fn discard<K, V>(key: K, value: V) {
    drop(key);
    drop(value);
}

/// Forms of a map's calls that take memory, each with an error for *out of memory*.
/// [`More::fallible`](crate::More::fallible) makes a `Fallible` for one call.
///
/// ```
/// use jeerdurian::{ByLength, LruMap, More};
///
/// # fn main() -> Result<(), jeerdurian::AllocError> {
/// let mut map = LruMap::new(ByLength::new(3));
/// assert!(map.fallible().insert(1, 10)?);
/// # Ok(())
/// # }
/// ```
pub struct Fallible<'m, K, V, L: Limiter<K, V>, S> {
    pub(crate) map: &'m mut LruMap<K, V, L, S>,
}

impl<'m, K, V, L, S> Fallible<'m, K, V, L, S>
where
    K: Hash + PartialEq,
    S: BuildHasher,
    L: Limiter<K, V>,
{
    /// Inserts as [`LruMap::insert`] does. Proved: `Ok(true)` means that the key is there, as the newest, within the
    /// limit, and `Ok(false)` that it is not there. After an `Err`, only the oldest entries may be gone. Cost: as
    /// [`LruMap::insert`].
    ///
    /// # Errors
    ///
    /// Out of memory. The new entry is not in the map then. If entries were evicted, a successful insert would have
    /// evicted them, too.
    #[inline]
    pub fn insert<'a>(self, key: L::KeyToInsert<'a>, value: V) -> Result<bool, AllocError>
    where
        L::KeyToInsert<'a>: Hash + PartialEq<K>,
    {
        self.map.map.insert_with(Offered(key), value, &mut discard)
    }

    /// Inserts as [`More::insert_full`](crate::More::insert_full) does. Proved: the same as for `insert`, and the
    /// returned value. Cost: as `insert`, plus the calls of the callback.
    ///
    /// # Errors
    ///
    /// As for `insert`. The callback got the new entry then.
    #[inline]
    pub fn insert_full<'a>(
        self,
        key: L::KeyToInsert<'a>,
        value: V,
        mut lost: impl FnMut(K, V),
    ) -> Result<Inserted<V>, AllocError>
    where
        L::KeyToInsert<'a>: Hash + PartialEq<K>,
    {
        self.map.map.insert_full(Offered(key), value, &mut lost)
    }

    /// Lends the value of a key as the newest. If the key is absent, first inserts it. Proved: the same as for
    /// `LruMap::get` and `insert`. Cost: as `get` if the key is there, else as `insert`.
    ///
    /// # Errors
    ///
    /// `Caller`: the closure's error; nothing has changed. `Memory`: as for `insert`.
    #[inline]
    pub fn get_or_insert<'a, E>(
        self,
        key: impl Into<L::KeyToInsert<'a>> + Hash + PartialEq<K>,
        get: impl FnOnce() -> Result<V, E>,
    ) -> Result<Option<&'m mut V>, GetOrInsertError<E>>
    where
        L::KeyToInsert<'a>: Hash + PartialEq<K>,
    {
        let map = &mut self.map.map;
        let hash = map.hasher().hash_named(&Named(&key));
        if let Some(b) = map.entries.find(hash, &Named(&key)) {
            map.entries.promote(b);
            return Ok(Some(map.entries.pair_mut(b).1));
        }
        let value = get().map_err(GetOrInsertError::Caller)?;
        let key = Offered(key.into());
        // A conversion need not keep the hash. If it does, the key is absent, and no second search is needed.
        let kept = if map.hasher().hash_named(&key) == hash {
            map.insert_new(hash, key, value, &mut discard)
        } else {
            map.insert_with(key, value, &mut discard)
        };
        match kept {
            Ok(true) => Ok(Some(map.newest_value_mut())),
            Ok(false) => Ok(None),
            Err(AllocError) => Err(GetOrInsertError::Memory),
        }
    }

    /// Clones the map as `clone` does. Proved: the same as for `More::try_clone`. Cost: as the `clone` of the map.
    ///
    /// # Errors
    ///
    /// Out of memory for the table. A `Clone` of a key or a value that runs out of memory does not return.
    pub fn clone(self) -> Result<LruMap<K, V, L, S>, AllocError>
    where
        K: Clone,
        V: Clone,
        L: Clone,
        S: Clone,
    {
        Ok(LruMap { map: self.map.map.try_clone()? })
    }

    /// Moves the entries into the smallest table that holds them. Returns whether it moved them. Proved: the same as
    /// for `More::shrink_to_fit`. Cost: `O(1)` if the table stays, else `O(buckets)` and three allocations.
    ///
    /// # Errors
    ///
    /// Out of memory. Nothing has changed then.
    pub fn shrink_to_fit(self) -> Result<bool, AllocError> {
        self.map.map.shrink_to_fit()
    }
}
