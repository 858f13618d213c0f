// Erased from crates/schnellru/src/walk/drain.rt: do not edit.
#[allow(unused_imports)]
use crate::rattle_std::prelude::*;

use crate::erased::lru_limits::{KeyHasher, Limiter};
use crate::erased::schnellru::map::LruMap;
use crate::rattle_std::hash::Hash;
use crate::rattle_std::iter::FusedIterator;

/// An iterator that takes the entries out of a map, from both ends. Dropping the iterator clears the map. `mem::forget`
/// of the iterator leaves the remaining entries in the map.
///
/// Follows schnellru's `Drain`.
pub struct Drain<'a, K: Eq + Hash, V, L: Limiter<K, V>, S: KeyHasher<K>> {
    map: &'a mut LruMap<K, V, L, S>,
}

impl<'a, K: Eq + Hash, V, L: Limiter<K, V>, S: KeyHasher<K>> Drop for Drain<'a, K, V, L, S> {
    fn drop(&mut self) {
        // SAFETY: each field is a reference or a number, which has nothing to drop.
        unsafe { ::core::ptr::read(self) }.take_apart();
    }
}

impl<'a, K: Eq + Hash, V, L: Limiter<K, V>, S: KeyHasher<K>> Drain<'a, K, V, L, S> {
    /// Clears the map, even if no entry is left. Cost: as `LruMap::clear`.
    fn take_apart(self) {
        let whole = ::core::mem::ManuallyDrop::new(self);
        // SAFETY: each field is read once, and the whole is not dropped.
        let map = unsafe { ::core::ptr::read(&whole.map) };
        map.clear();
    }
}

impl<'a, K: Eq + Hash, V, L: Limiter<K, V>, S: KeyHasher<K>> Iterator for Drain<'a, K, V, L, S> {
    type Item = (K, V);

    fn next(&mut self) -> Option<(K, V)> {
        self.map.pop_newest()
    }

    fn size_hint(&self) -> (usize, Option<usize>) {
        let len = self.map.len();
        (len, Some(len))
    }
}

impl<'a, K: Eq + Hash, V, L: Limiter<K, V>, S: KeyHasher<K>> DoubleEndedIterator for Drain<'a, K, V, L, S> {
    fn next_back(&mut self) -> Option<(K, V)> {
        self.map.pop_oldest()
    }
}

impl<'a, K: Eq + Hash, V, L: Limiter<K, V>, S: KeyHasher<K>> ExactSizeIterator for Drain<'a, K, V, L, S> {
    fn len(&self) -> usize {
        self.map.len()
    }
}

impl<'a, K: Eq + Hash, V, L: Limiter<K, V>, S: KeyHasher<K>> FusedIterator for Drain<'a, K, V, L, S> {}

impl<K: Eq + Hash, V, L: Limiter<K, V>, S: KeyHasher<K>> LruMap<K, V, L, S> {
    /// Returns an iterator that takes out the entries, newest first. Dropping the iterator clears the map.
    ///
    /// Cost: `O(1)`, and `O(1)` for each entry that is taken. The drop costs as much as `clear`.
    ///
    /// Follows schnellru's `LruMap::drain`.
    pub fn drain(&mut self) -> Drain<'_, K, V, L, S> {
        Drain { map: self }
    }
}
