// Erased from crates/lru_caches/src/ordered_map/into_entries.rt: do not edit.
#[allow(unused_imports)]
use crate::rattle_std::prelude::*;

use crate::erased::lru_caches::ordered_map::OrderedMap;
use crate::erased::schnellru::KeyHasher;
use crate::rattle_std::hash::Hash;
use crate::rattle_std::iter::FusedIterator;

/// A double-ended iterator that takes out the entries of an ordered map, oldest first. Dropping the iterator drops the
/// remaining entries.

pub struct IntoEntries<K, V, S> {
    map: OrderedMap<K, V, S>,
}

impl<K: Eq + Hash, V, S: KeyHasher<K>> Iterator for IntoEntries<K, V, S> {
    type Item = (K, V);

    fn next(&mut self) -> Option<(K, V)> {
        self.map.pop_first()
    }

    fn size_hint(&self) -> (usize, Option<usize>) {
        let len = self.map.len();
        (len, Some(len))
    }
}

impl<K: Eq + Hash, V, S: KeyHasher<K>> DoubleEndedIterator for IntoEntries<K, V, S> {
    fn next_back(&mut self) -> Option<(K, V)> {
        self.map.pop_last()
    }
}

impl<K: Eq + Hash, V, S: KeyHasher<K>> ExactSizeIterator for IntoEntries<K, V, S> {
    fn len(&self) -> usize {
        self.map.len()
    }
}

impl<K: Eq + Hash, V, S: KeyHasher<K>> FusedIterator for IntoEntries<K, V, S> {}

/// `for (key, value) in map` takes the entries out, oldest first.
impl<K: Eq + Hash, V, S: KeyHasher<K>> IntoIterator for OrderedMap<K, V, S> {
    type Item = (K, V);

    type IntoIter = IntoEntries<K, V, S>;

    fn into_iter(self) -> IntoEntries<K, V, S> {
        IntoEntries { map: self }
    }
}
