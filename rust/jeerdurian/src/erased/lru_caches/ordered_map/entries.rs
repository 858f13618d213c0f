// Erased from crates/lru_caches/src/ordered_map/entries.rt: do not edit.
#[allow(unused_imports)]
use crate::rattle_std::prelude::*;

use crate::erased::lru_caches::ordered_map::OrderedMap;
use crate::erased::schnellru::{KeyHasher, Walk};
use crate::rattle_std::hash::Hash;
use crate::rattle_std::iter::FusedIterator;

/// A double-ended iterator over the entries of an ordered map, oldest first.

pub struct Entries<'a, K, V> {
    newest_first: Walk<'a, K, V, usize>,
}

impl<'a, K, V> Entries<'a, K, V> {
    pub(super) fn new(newest_first: Walk<'a, K, V, usize>) -> Entries<'a, K, V> {
        Entries { newest_first }
    }
}

impl<'a, K, V> Iterator for Entries<'a, K, V> {
    type Item = (&'a K, &'a V);

    fn next(&mut self) -> Option<(&'a K, &'a V)> {
        self.newest_first.next_back()
    }

    fn size_hint(&self) -> (usize, Option<usize>) {
        self.newest_first.size_hint()
    }
}

impl<'a, K, V> DoubleEndedIterator for Entries<'a, K, V> {
    fn next_back(&mut self) -> Option<(&'a K, &'a V)> {
        self.newest_first.next()
    }
}

impl<'a, K, V> ExactSizeIterator for Entries<'a, K, V> {
    fn len(&self) -> usize {
        self.newest_first.len()
    }
}

impl<'a, K, V> FusedIterator for Entries<'a, K, V> {}

impl<'a, K: Eq + Hash, V, S: KeyHasher<K>> IntoIterator for &'a OrderedMap<K, V, S> {
    type Item = (&'a K, &'a V);

    type IntoIter = Entries<'a, K, V>;

    fn into_iter(self) -> Entries<'a, K, V> {
        self.iter()
    }
}
