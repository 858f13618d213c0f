// Erased from crates/ordered_table/src/walk/keys.rt: do not edit.
#[allow(unused_imports)]
use crate::rattle_std::prelude::*;

use crate::erased::group_table::LinkType;
use crate::erased::ordered_table::ordered::OrderedTable;
use crate::erased::ordered_table::walk::Walk;
use crate::rattle_std::alloc::AllocError;
use crate::rattle_std::iter::FusedIterator;

/// A double-ended iterator over the keys of a table or a map, newest first.

pub struct Keys<'a, K, V, N: LinkType> {
    walk: Walk<'a, K, V, N>,
}

impl<'a, K, V, N: LinkType> Iterator for Keys<'a, K, V, N> {
    type Item = &'a K;

    fn next(&mut self) -> Option<&'a K> {
        match self.walk.next() {
            Some((key, _)) => Some(key),
            None => None,
        }
    }

    fn size_hint(&self) -> (usize, Option<usize>) {
        self.walk.size_hint()
    }
}

impl<'a, K, V, N: LinkType> DoubleEndedIterator for Keys<'a, K, V, N> {
    fn next_back(&mut self) -> Option<&'a K> {
        match self.walk.next_back() {
            Some((key, _)) => Some(key),
            None => None,
        }
    }
}

impl<'a, K, V, N: LinkType> ExactSizeIterator for Keys<'a, K, V, N> {
    fn len(&self) -> usize {
        self.walk.len()
    }
}

impl<'a, K, V, N: LinkType> FusedIterator for Keys<'a, K, V, N> {}

/// The clone returns the keys that are left. Cost: `O(1)`, and no memory.
impl<'a, K, V, N: LinkType> Clone for Keys<'a, K, V, N> {
    fn clone(&self) -> Self {
        let made = || -> Result<Keys<'a, K, V, N>, AllocError> { Ok(Keys { walk: self.walk.try_clone()? }) };
        never_fails(made())
    }
}

/// A double-ended iterator over the values of a table or a map, newest first.

pub struct Values<'a, K, V, N: LinkType> {
    walk: Walk<'a, K, V, N>,
}

impl<'a, K, V, N: LinkType> Iterator for Values<'a, K, V, N> {
    type Item = &'a V;

    fn next(&mut self) -> Option<&'a V> {
        match self.walk.next() {
            Some((_, value)) => Some(value),
            None => None,
        }
    }

    fn size_hint(&self) -> (usize, Option<usize>) {
        self.walk.size_hint()
    }
}

impl<'a, K, V, N: LinkType> DoubleEndedIterator for Values<'a, K, V, N> {
    fn next_back(&mut self) -> Option<&'a V> {
        match self.walk.next_back() {
            Some((_, value)) => Some(value),
            None => None,
        }
    }
}

impl<'a, K, V, N: LinkType> ExactSizeIterator for Values<'a, K, V, N> {
    fn len(&self) -> usize {
        self.walk.len()
    }
}

impl<'a, K, V, N: LinkType> FusedIterator for Values<'a, K, V, N> {}

impl<'a, K, V, N: LinkType> Clone for Values<'a, K, V, N> {
    fn clone(&self) -> Self {
        let made = || -> Result<Values<'a, K, V, N>, AllocError> { Ok(Values { walk: self.walk.try_clone()? }) };
        never_fails(made())
    }
}

impl<K, V, N: LinkType> OrderedTable<K, V, N> {
    /// Returns an iterator over the keys, newest first.
    ///
    /// Cost: as `iter`.
    pub fn keys(&self) -> Keys<'_, K, V, N> {
        Keys { walk: self.iter() }
    }

    /// Returns an iterator over the values, newest first.
    ///
    /// Cost: as `iter`.
    pub fn values(&self) -> Values<'_, K, V, N> {
        Values { walk: self.iter() }
    }
}
