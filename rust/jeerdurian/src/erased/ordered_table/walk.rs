// Erased from crates/ordered_table/src/walk.rt: do not edit.
#[allow(unused_imports)]
use crate::rattle_std::prelude::*;

use crate::erased::group_table::LinkType;
use crate::erased::ordered_table::ordered::OrderedTable;
use crate::rattle_std::alloc::AllocError;
use crate::rattle_std::fmt;
use crate::rattle_std::iter::FusedIterator;

pub(crate) mod keys;

/// A double-ended iterator over the entries of a table or a map, newest first.

pub struct Walk<'a, K, V, N: LinkType> {
    entries: &'a OrderedTable<K, V, N>,
    // The buckets of the first and the last remaining entry, and the number of remaining entries.
    front: usize,
    back: usize,
    left: usize,
}

impl<'a, K, V, N: LinkType> Iterator for Walk<'a, K, V, N> {
    type Item = (&'a K, &'a V);

    #[inline]
    fn next(&mut self) -> Option<(&'a K, &'a V)> {
        if self.left == 0 {
            return None;
        }
        let b = self.front;
        let pair = self.entries.pair(b);
        self.front = self.entries.older_unless_last(b);
        self.left -= 1;
        Some(pair)
    }

    fn size_hint(&self) -> (usize, Option<usize>) {
        (self.left, Some(self.left))
    }
}

impl<'a, K, V, N: LinkType> DoubleEndedIterator for Walk<'a, K, V, N> {
    #[inline]
    fn next_back(&mut self) -> Option<(&'a K, &'a V)> {
        if self.left == 0 {
            return None;
        }
        let b = self.back;
        let pair = self.entries.pair(b);
        self.back = self.entries.newer_unless_first(b);
        self.left -= 1;
        Some(pair)
    }
}

impl<'a, K, V, N: LinkType> ExactSizeIterator for Walk<'a, K, V, N> {
    fn len(&self) -> usize {
        self.left
    }
}

impl<'a, K, V, N: LinkType> FusedIterator for Walk<'a, K, V, N> {}

impl<'a, K, V, N: LinkType> Clone for Walk<'a, K, V, N> {
    fn clone(&self) -> Self {
        let made = || -> Result<Walk<'a, K, V, N>, AllocError> {
            Ok(Walk { entries: self.entries, front: self.front, back: self.back, left: self.left })
        };
        never_fails(made())
    }
}

/// Shows the entries that are left, newest first, as `[(2, 20), (1, 10)]`.
impl<'a, K: fmt::Debug, V: fmt::Debug, N: LinkType> fmt::Debug for Walk<'a, K, V, N> {
    fn fmt(&self, f: &mut fmt::Formatter<'_>) -> fmt::Result {
        let left = Walk { entries: self.entries, front: self.front, back: self.back, left: self.left };
        f.debug_list().entries(left).finish()
    }
}

impl<K, V, N: LinkType> OrderedTable<K, V, N> {
    /// Returns an iterator over the entries, newest first.
    ///
    /// Cost: `O(1)`, and `O(1)` for each step from either end.
    pub fn iter(&self) -> Walk<'_, K, V, N> {
        let left = self.len();
        let (front, back) = if left == 0 { (0, 0) } else { (self.newest(), self.oldest()) };
        Walk { entries: self, front, back, left }
    }
}
