// Erased from crates/lru_caches/src/ordered_map/keys.rt: do not edit.
#[allow(unused_imports)]
use crate::rattle_std::prelude::*;

use crate::erased::lru_caches::ordered_map::entries::Entries;
use crate::rattle_std::iter::FusedIterator;

/// A double-ended iterator over the keys of an ordered map, oldest first.

pub struct Keys<'a, K, V> {
    entries: Entries<'a, K, V>,
}

impl<'a, K, V> Keys<'a, K, V> {
    pub(super) fn new(entries: Entries<'a, K, V>) -> Keys<'a, K, V> {
        Keys { entries }
    }
}

impl<'a, K, V> Iterator for Keys<'a, K, V> {
    type Item = &'a K;

    fn next(&mut self) -> Option<&'a K> {
        match self.entries.next() {
            Some((key, _)) => Some(key),
            None => None,
        }
    }

    fn size_hint(&self) -> (usize, Option<usize>) {
        self.entries.size_hint()
    }
}

impl<'a, K, V> DoubleEndedIterator for Keys<'a, K, V> {
    fn next_back(&mut self) -> Option<&'a K> {
        match self.entries.next_back() {
            Some((key, _)) => Some(key),
            None => None,
        }
    }
}

impl<'a, K, V> ExactSizeIterator for Keys<'a, K, V> {
    fn len(&self) -> usize {
        self.entries.len()
    }
}

impl<'a, K, V> FusedIterator for Keys<'a, K, V> {}

/// A double-ended iterator over the values of an ordered map, oldest first.

pub struct Values<'a, K, V> {
    entries: Entries<'a, K, V>,
}

impl<'a, K, V> Values<'a, K, V> {
    pub(super) fn new(entries: Entries<'a, K, V>) -> Values<'a, K, V> {
        Values { entries }
    }
}

impl<'a, K, V> Iterator for Values<'a, K, V> {
    type Item = &'a V;

    fn next(&mut self) -> Option<&'a V> {
        match self.entries.next() {
            Some((_, value)) => Some(value),
            None => None,
        }
    }

    fn size_hint(&self) -> (usize, Option<usize>) {
        self.entries.size_hint()
    }
}

impl<'a, K, V> DoubleEndedIterator for Values<'a, K, V> {
    fn next_back(&mut self) -> Option<&'a V> {
        match self.entries.next_back() {
            Some((_, value)) => Some(value),
            None => None,
        }
    }
}

impl<'a, K, V> ExactSizeIterator for Values<'a, K, V> {
    fn len(&self) -> usize {
        self.entries.len()
    }
}

impl<'a, K, V> FusedIterator for Values<'a, K, V> {}
