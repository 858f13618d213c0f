//! Walks that begin with the oldest entry, and their `Debug` and the `Debug` of `Taken`.

use super::Taken;
use crate::erased::ordered_table::Walk;
use crate::iter::WalkMut;
use core::fmt::{Debug, Formatter, Result};

/// A walk from the other end. Unlike the `Debug` of `Rev`, its `Debug` shows the entries that are left.
#[derive(Clone)]
pub(crate) struct OldestFirst<T>(pub(crate) T);

impl<T: DoubleEndedIterator> Iterator for OldestFirst<T> {
    type Item = T::Item;

    #[inline]
    fn next(&mut self) -> Option<T::Item> {
        self.0.next_back()
    }

    #[inline]
    fn size_hint(&self) -> (usize, Option<usize>) {
        self.0.size_hint()
    }
}

impl<T: DoubleEndedIterator> DoubleEndedIterator for OldestFirst<T> {
    #[inline]
    fn next_back(&mut self) -> Option<T::Item> {
        self.0.next()
    }
}

impl<K: Debug, V: Debug> Debug for OldestFirst<Walk<'_, K, V, usize>> {
    fn fmt(&self, f: &mut Formatter<'_>) -> Result {
        f.debug_list().entries(self.0.clone().rev()).finish()
    }
}

impl<K: Debug, V: Debug> Debug for OldestFirst<WalkMut<'_, K, V, usize>> {
    fn fmt(&self, f: &mut Formatter<'_>) -> Result {
        f.debug_list().entries(self.0.left()).finish()
    }
}

impl<K: Debug, V: Debug> Debug for Taken<K, V> {
    fn fmt(&self, f: &mut Formatter<'_>) -> Result {
        f.debug_list().entries(self.0.iter().rev()).finish()
    }
}
