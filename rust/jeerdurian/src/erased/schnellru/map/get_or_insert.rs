// Erased from crates/schnellru/src/map/get_or_insert.rt: do not edit.
#[allow(unused_imports)]
use crate::rattle_std::prelude::*;

use crate::erased::lru_limits::{Insertion, KeyHasher, Limiter, LookupKey};
use crate::erased::lru_model::GetOrInsertError;
use crate::erased::schnellru::map::LruMap;
use crate::erased::schnellru::map::remove::discard;
use crate::rattle_std::alloc::AllocError;
use crate::rattle_std::hash::Hash;

pub(crate) enum NotLent<E> {
    NotKept,
    Failed(E),
}

fn kept_or_error<V, E>(
    lent: Result<&mut V, NotLent<GetOrInsertError<E>>>,
) -> Result<Option<&mut V>, GetOrInsertError<E>> {
    match lent {
        Ok(value) => Ok(Some(value)),
        Err(NotLent::NotKept) => Ok(None),
        Err(NotLent::Failed(error)) => Err(error),
    }
}

fn kept_or<V>(lent: Result<&mut V, NotLent<AllocError>>) -> Result<Option<&mut V>, AllocError> {
    match lent {
        Ok(value) => Ok(Some(value)),
        Err(NotLent::NotKept) => Ok(None),
        Err(NotLent::Failed(e)) => Err(e),
    }
}

impl<K: Eq + Hash, V, L: Limiter<K, V>, S: KeyHasher<K>> LruMap<K, V, L, S> {
    /// Makes the entry of a key the newest. If the key is not there, inserts the key as `insert` does, with the value
    /// that the closure returns. Returns whether the key is in the map afterwards.
    ///
    /// Cost: as `get` if the key is there, else as `insert`.
    ///
    /// # Errors
    ///
    /// Fails as `insert` does, after the closure was called.
    pub fn ensure_newest<I: LookupKey<K>, F: FnOnce() -> V>(&mut self, key: I, make: F) -> Result<bool, AllocError>
    where
        L: Insertion<K, V, I>,
    {
        self.show_map();
        let answer = self.make_newest(key, make);
        self.show_map();
        answer
    }

    fn make_newest<I: LookupKey<K>, F: FnOnce() -> V>(&mut self, key: I, make: F) -> Result<bool, AllocError>
    where
        L: Insertion<K, V, I>,
    {
        let hash = self.hasher.hash_named(&key);
        match self.find_hashed(hash, &key) {
            Some(b) => {
                self.promote_at(b);
                Ok(true)
            }
            None => self.insert_new(hash, key, make(), &mut discard),
        }
    }

    #[inline]
    fn lend_if_kept<E>(&mut self, kept: Result<bool, E>) -> Result<&mut V, NotLent<E>> {
        self.show_map();
        match kept {
            Ok(true) => Ok(self.newest_value_mut()),
            Ok(false) => Err(NotLent::NotKept),
            Err(error) => Err(NotLent::Failed(error)),
        }
    }

    pub(crate) fn lend_or_insert<I: LookupKey<K>, F: FnOnce() -> V>(
        &mut self,
        key: I,
        make: F,
    ) -> Result<&mut V, NotLent<AllocError>>
    where
        L: Insertion<K, V, I>,
    {
        let kept = self.ensure_newest(key, make);
        self.lend_if_kept(kept)
    }

    /// Lends the value of a key for writing. If the key is not there, inserts it with the value that the closure
    /// returns.
    ///
    /// If the key is there, its entry becomes the newest, and the closure is not called. If the new entry is not in the
    /// map afterwards, the result is `None`. A caller's proof cannot use the clause `writes_back`, so proved code calls
    /// `ensure_newest` and `newest_mut` instead.
    ///
    /// Cost: as `get` if the key is there, else as `insert`.
    ///
    /// # Errors
    ///
    /// Fails as `insert` does, after the closure was called.
    ///
    /// Follows schnellru's `LruMap::get_or_insert`.
    pub fn get_or_insert<I: LookupKey<K>, F: FnOnce() -> V>(
        &mut self,
        key: I,
        make: F,
    ) -> Result<Option<&mut V>, AllocError>
    where
        L: Insertion<K, V, I>,
    {
        let lent = self.lend_or_insert(key, make);
        kept_or(lent)
    }

    /// Does what `ensure_newest` does, with a closure that may fail. Cost: as `ensure_newest`.
    ///
    /// # Errors
    ///
    /// `Caller` means that the closure failed, and contains the error of the closure. Nothing has changed. `Memory`
    /// means that the closure succeeded, and the insert failed as `insert` does.
    pub fn ensure_newest_fallible<I: LookupKey<K>, E, F: FnOnce() -> Result<V, E>>(
        &mut self,
        key: I,
        make: F,
    ) -> Result<bool, GetOrInsertError<E>>
    where
        L: Insertion<K, V, I>,
    {
        self.show_map();
        let answer = self.make_newest_if_made(key, make);
        self.show_map();
        answer
    }

    fn make_newest_if_made<I: LookupKey<K>, E, F: FnOnce() -> Result<V, E>>(
        &mut self,
        key: I,
        make: F,
    ) -> Result<bool, GetOrInsertError<E>>
    where
        L: Insertion<K, V, I>,
    {
        let hash = self.hasher.hash_named(&key);
        match self.find_hashed(hash, &key) {
            Some(b) => {
                self.promote_at(b);
                Ok(true)
            }
            None => {
                let value = match make() {
                    Ok(value) => value,
                    Err(error) => return Err(GetOrInsertError::Caller(error)),
                };
                match self.insert_new(hash, key, value, &mut discard) {
                    Ok(kept) => Ok(kept),
                    Err(_refused) => Err(GetOrInsertError::Memory),
                }
            }
        }
    }

    pub(crate) fn lend_or_insert_fallible<I: LookupKey<K>, E, F: FnOnce() -> Result<V, E>>(
        &mut self,
        key: I,
        make: F,
    ) -> Result<&mut V, NotLent<GetOrInsertError<E>>>
    where
        L: Insertion<K, V, I>,
    {
        let kept = self.ensure_newest_fallible(key, make);
        self.lend_if_kept(kept)
    }

    /// Does what `get_or_insert` does, with a closure that may fail. Cost: as `get_or_insert`.
    ///
    /// # Errors
    ///
    /// Fails as `ensure_newest_fallible` does.
    ///
    /// Follows schnellru's `LruMap::get_or_insert_fallible`.
    pub fn get_or_insert_fallible<I: LookupKey<K>, E, F: FnOnce() -> Result<V, E>>(
        &mut self,
        key: I,
        make: F,
    ) -> Result<Option<&mut V>, GetOrInsertError<E>>
    where
        L: Insertion<K, V, I>,
    {
        let lent = self.lend_or_insert_fallible(key, make);
        kept_or_error(lent)
    }
}
