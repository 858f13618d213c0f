// Erased from crates/schnellru/src/walk/into_iter.rt: do not edit.
#[allow(unused_imports)]
use crate::rattle_std::prelude::*;

use crate::erased::lru_limits::{KeyHasher, Limiter};
use crate::erased::schnellru::map::LruMap;
use crate::rattle_std::hash::Hash;
use crate::rattle_std::iter::FusedIterator;

/// An iterator that owns a map, and takes its entries out from both ends. `next` takes the newest entry.
///
/// Dropping the iterator drops the remaining entries without notifying the limiter.

pub struct IntoIter<K, V, L: Limiter<K, V>, S> {
    map: LruMap<K, V, L, S>,
}

impl<K: Eq + Hash, V, L: Limiter<K, V>, S: KeyHasher<K>> Iterator for IntoIter<K, V, L, S> {
    type Item = (K, V);

    fn next(&mut self) -> Option<(K, V)> {
        self.map.pop_newest()
    }

    fn size_hint(&self) -> (usize, Option<usize>) {
        let len = self.map.len();
        (len, Some(len))
    }
}

impl<K: Eq + Hash, V, L: Limiter<K, V>, S: KeyHasher<K>> DoubleEndedIterator for IntoIter<K, V, L, S> {
    fn next_back(&mut self) -> Option<(K, V)> {
        self.map.pop_oldest()
    }
}

impl<K: Eq + Hash, V, L: Limiter<K, V>, S: KeyHasher<K>> ExactSizeIterator for IntoIter<K, V, L, S> {
    fn len(&self) -> usize {
        self.map.len()
    }
}

impl<K: Eq + Hash, V, L: Limiter<K, V>, S: KeyHasher<K>> FusedIterator for IntoIter<K, V, L, S> {}

/// `for (key, value) in map` takes the entries out, newest first.
impl<K: Eq + Hash, V, L: Limiter<K, V>, S: KeyHasher<K>> IntoIterator for LruMap<K, V, L, S> {
    type Item = (K, V);

    type IntoIter = IntoIter<K, V, L, S>;

    fn into_iter(self) -> IntoIter<K, V, L, S> {
        IntoIter { map: self }
    }
}
