//! How [`LruMap`] makes the calls that `schnellru` lacks.

use super::More;
use crate::entry::OccupiedEntry;
use crate::fallible::Fallible;
use crate::iter::{Keys, Values};
use crate::keys::{Named, Offered};
use crate::limiter::{Admission, Calls, Limiter};
use crate::map::LruMap;
use crate::rattle_std::alloc::AllocError;
use crate::{Inserted, MoveReport, ReserveError, Updated};
use core::hash::{BuildHasher, Hash};
impl<K, V, L, S> More<K, V, L, S> for LruMap<K, V, L, S>
where
    K: Hash + PartialEq,
    S: BuildHasher,
    L: Limiter<K, V>,
{
    #[inline]
    fn contains(&self, key: &(impl Hash + PartialEq<K> + ?Sized)) -> bool {
        self.map.contains(&Named(key))
    }

    #[inline]
    fn peek_key_value(&self, key: &(impl Hash + PartialEq<K> + ?Sized)) -> Option<(&K, &V)> {
        self.map.peek_key_value(&Named(key))
    }

    #[inline]
    fn get_key_value(&mut self, key: &(impl Hash + PartialEq<K> + ?Sized)) -> Option<(&K, &V)> {
        self.map.get_key_value(&Named(key))
    }

    #[inline]
    fn promote(&mut self, key: &(impl Hash + PartialEq<K> + ?Sized)) -> bool {
        self.map.promote(&Named(key))
    }

    fn demote(&mut self, key: &(impl Hash + PartialEq<K> + ?Sized)) -> bool {
        self.map.demote(&Named(key))
    }

    #[inline]
    fn find_entry(&mut self, key: &(impl Hash + PartialEq<K> + ?Sized)) -> Option<OccupiedEntry<'_, K, V, L, S>> {
        Some(OccupiedEntry { entry: self.map.find_entry(&Named(key))? })
    }

    fn find_entry_by_hash(
        &mut self,
        hash: u64,
        is_eq: impl FnMut(&K, &V) -> bool,
    ) -> Option<OccupiedEntry<'_, K, V, L, S>> {
        Some(OccupiedEntry { entry: self.map.find_entry_by_hash(hash, is_eq)? })
    }

    fn newest_mut(&mut self) -> Option<&mut V> {
        self.map.newest_mut()
    }

    fn get_index(&self, index: usize) -> Option<(&K, &V)> {
        self.map.get_index(index)
    }

    fn get_index_of(&self, key: &(impl Hash + PartialEq<K> + ?Sized)) -> Option<usize> {
        self.map.get_index_of(&Named(key))
    }

    fn peek_older(&self, key: &(impl Hash + PartialEq<K> + ?Sized)) -> Option<(&K, &V)> {
        self.map.peek_older(&Named(key))
    }

    fn peek_newer(&self, key: &(impl Hash + PartialEq<K> + ?Sized)) -> Option<(&K, &V)> {
        self.map.peek_newer(&Named(key))
    }

    fn keys(&self) -> Keys<'_, K, V, L> {
        Keys { walk: self.map.keys() }
    }

    fn values(&self) -> Values<'_, K, V, L> {
        Values { walk: self.map.values() }
    }

    fn remove_entry(&mut self, key: &(impl Hash + PartialEq<K> + ?Sized)) -> Option<(K, V)> {
        self.map.remove_entry(&Named(key))
    }

    fn retain(&mut self, keep: impl FnMut(&K, &V) -> bool) {
        self.map.retain(keep);
    }

    fn retain_with(&mut self, keep: impl FnMut(&K, &V) -> bool, mut removed: impl FnMut(K, V)) {
        self.map.retain_with(keep, &mut removed);
    }

    fn pop_oldest_if(&mut self, accepts: impl FnOnce(&K, &V) -> bool) -> Option<(K, V)> {
        self.map.pop_oldest_if(accepts)
    }

    #[inline]
    fn insert_with<'a>(&mut self, key: L::KeyToInsert<'a>, value: V, mut lost: impl FnMut(K, V)) -> bool
    where
        L::KeyToInsert<'a>: Hash + PartialEq<K>,
    {
        self.map.insert_with(Offered(key), value, &mut lost).unwrap_or(false)
    }

    #[inline]
    fn insert_full<'a>(&mut self, key: L::KeyToInsert<'a>, value: V, mut lost: impl FnMut(K, V)) -> Inserted<V>
    where
        L::KeyToInsert<'a>: Hash + PartialEq<K>,
    {
        match self.map.insert_full(Offered(key), value, &mut lost) {
            Ok(inserted) => inserted,
            Err(_) => Inserted { kept: false, unkept: None },
        }
    }

    fn try_insert(&mut self, key: K, value: V) -> Result<(), (K, V)>
    where
        L: Admission<K, V> + Copy,
    {
        self.map.try_insert(key, value)
    }

    #[inline]
    fn update<'a>(&mut self, key: L::KeyToInsert<'a>, value: V) -> Updated<V>
    where
        L::KeyToInsert<'a>: Hash + PartialEq<K>,
    {
        self.map.update(Offered(key), value)
    }

    fn update_with<'a>(&mut self, key: L::KeyToInsert<'a>, value: V, mut lost: impl FnMut(K, V)) -> Updated<V>
    where
        L::KeyToInsert<'a>: Hash + PartialEq<K>,
    {
        self.map.update_with(Offered(key), value, &mut lost)
    }

    fn trim(&mut self) {
        self.map.trim();
    }

    fn trim_with(&mut self, mut evicted: impl FnMut(K, V)) {
        self.map.trim_with(&mut evicted);
    }

    fn set_limiter(&mut self, limiter: L) -> L {
        self.map.set_limiter(Calls(limiter)).0
    }

    fn set_limiter_with(&mut self, limiter: L, mut evicted: impl FnMut(K, V)) -> L {
        self.map.set_limiter_with(Calls(limiter), &mut evicted).0
    }

    fn hasher(&self) -> &S {
        self.map.hasher()
    }

    fn try_reserve(&mut self, additional: usize) -> Result<(), ReserveError> {
        self.map.try_reserve(additional)
    }

    fn shrink_to_fit(&mut self) -> bool {
        self.map.shrink_to_fit().unwrap_or(false)
    }

    fn move_report(&self) -> MoveReport {
        self.map.move_report()
    }

    fn try_clone(&self) -> Result<LruMap<K, V, L, S>, AllocError>
    where
        K: Clone,
        V: Clone,
        L: Clone,
        S: Clone,
    {
        Ok(LruMap { map: self.map.try_clone()? })
    }

    fn fallible(&mut self) -> Fallible<'_, K, V, L, S> {
        Fallible { map: self }
    }
}
