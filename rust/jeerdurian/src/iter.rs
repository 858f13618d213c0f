//! Iterators over the entries of a map, the newest first.

use crate::erased::lru_limits::LinkType;
use crate::erased::ordered_table::{self, OrderedTable, Walk};
use crate::erased::schnellru as proved;
use crate::limiter::{Calls, Limiter};
use crate::map::LruMap;
use core::hash::{BuildHasher, Hash};

/// An iterator over the entries of a map, the newest first. Proved: it returns each entry once, in the order of use.
pub struct Iter<'a, K, V, L: Limiter<K, V>> {
    walk: Walk<'a, K, V, L::LinkType>,
}

impl<'a, K, V, L: Limiter<K, V>> Iter<'a, K, V, L> {
    pub(crate) fn new<S>(map: &'a proved::LruMap<K, V, Calls<L>, S>) -> Self {
        Iter { walk: map.entries.iter() }
    }
}

/// An iterator over the keys of a map, the newest first. Proved: it returns each key once, in the order of use.
pub struct Keys<'a, K, V, L: Limiter<K, V>> {
    pub(crate) walk: ordered_table::Keys<'a, K, V, L::LinkType>,
}

/// An iterator over the values of a map, the newest first. Proved: it returns each value once, in the order of use.
pub struct Values<'a, K, V, L: Limiter<K, V>> {
    pub(crate) walk: ordered_table::Values<'a, K, V, L::LinkType>,
}

macro_rules! clones {
    ($($name:ident)*) => {$(
        impl<K, V, L: Limiter<K, V>> Clone for $name<'_, K, V, L> {
            fn clone(&self) -> Self {
                $name { walk: self.walk.clone() }
            }
        }
    )*};
}
clones!(Iter Keys Values);

/// An iterator that takes the entries out of a map, the newest first. Dropping it clears the map.
///
/// Proved: it returns what `pop_newest` and `pop_oldest` return.
pub struct Drain<'a, K, V, L, S>
where
    K: PartialEq + Hash,
    L: Limiter<K, V>,
    S: BuildHasher,
{
    pub(crate) drain: proved::Drain<'a, K, V, Calls<L>, S>,
}

/// An iterator that owns a map and takes its entries out, the newest first. Proved: the same as for [`Drain`].
pub struct IntoIter<K, V, L: Limiter<K, V>, S> {
    entries: proved::IntoIter<K, V, Calls<L>, S>,
}

// Impls for iterators that pass each call on to a field. `last` and `count` do not walk.
macro_rules! passes_on {
    ([$($parameters:tt)*] $name:ty, $item:ty, $field:ident) => {
        passes_on!([$($parameters)*] $name, $item, $field, where);
    };
    ([$($parameters:tt)*] $name:ty, $item:ty, $field:ident, $($bounds:tt)*) => {
        impl<$($parameters)*> Iterator for $name $($bounds)* {
            type Item = $item;

            #[inline]
            fn next(&mut self) -> Option<$item> {
                self.$field.next()
            }

            #[inline]
            fn size_hint(&self) -> (usize, Option<usize>) {
                self.$field.size_hint()
            }

            #[inline]
            fn last(mut self) -> Option<$item> {
                self.next_back()
            }

            #[inline]
            fn count(self) -> usize {
                self.len()
            }
        }

        impl<$($parameters)*> DoubleEndedIterator for $name $($bounds)* {
            #[inline]
            fn next_back(&mut self) -> Option<$item> {
                self.$field.next_back()
            }
        }

        impl<$($parameters)*> ExactSizeIterator for $name $($bounds)* {}

        impl<$($parameters)*> core::iter::FusedIterator for $name $($bounds)* {}
    };
}
#[cfg(any(feature = "lru", feature = "hashlink", feature = "std"))]
pub(crate) use passes_on;

passes_on!(['a, K, V, L: Limiter<K, V>] Iter<'a, K, V, L>, (&'a K, &'a V), walk);
passes_on!(['a, K, V, L: Limiter<K, V>] Keys<'a, K, V, L>, &'a K, walk);
passes_on!(['a, K, V, L: Limiter<K, V>] Values<'a, K, V, L>, &'a V, walk);
passes_on!([K, V, L, S] Drain<'_, K, V, L, S>, (K, V), drain,
    where K: PartialEq + Hash, L: Limiter<K, V>, S: BuildHasher);
passes_on!([K, V, L, S] IntoIter<K, V, L, S>, (K, V), entries,
    where K: PartialEq + Hash, L: Limiter<K, V>, S: BuildHasher);

impl<'a, K, V, L, S> IntoIterator for &'a LruMap<K, V, L, S>
where
    K: Hash + PartialEq,
    S: BuildHasher,
    L: Limiter<K, V>,
{
    type Item = (&'a K, &'a V);
    type IntoIter = Iter<'a, K, V, L>;

    fn into_iter(self) -> Iter<'a, K, V, L> {
        self.iter()
    }
}

impl<'a, K, V, L, S> IntoIterator for &'a mut LruMap<K, V, L, S>
where
    K: Hash + PartialEq,
    S: BuildHasher,
    L: Limiter<K, V>,
{
    type Item = (&'a K, &'a mut V);
    type IntoIter = IterMut<'a, K, V, L>;

    fn into_iter(self) -> IterMut<'a, K, V, L> {
        self.iter_mut()
    }
}

impl<K, V, L, S> IntoIterator for LruMap<K, V, L, S>
where
    K: Hash + PartialEq,
    S: BuildHasher,
    L: Limiter<K, V>,
{
    type Item = (K, V);
    type IntoIter = IntoIter<K, V, L, S>;

    /// Takes the entries out, the newest first. The limiter is notified of each entry that is taken.
    fn into_iter(self) -> IntoIter<K, V, L, S> {
        IntoIter { entries: self.map.into_iter() }
    }
}

/// An iterator over the entries of a map, the newest first, that lends their values for writing.
///
/// The proved map lends one entry at a time. This iterator lends many at once, as in `schnellru`; it is not proved.
pub struct IterMut<'a, K, V, L: Limiter<K, V>> {
    walk: WalkMut<'a, K, V, L::LinkType>,
}

impl<'a, K, V, L: Limiter<K, V>> IterMut<'a, K, V, L> {
    pub(crate) fn new(entries: &'a mut OrderedTable<K, V, L::LinkType>) -> Self {
        IterMut { walk: WalkMut::new(entries) }
    }
}

passes_on!(['a, K, V, L: Limiter<K, V>] IterMut<'a, K, V, L>, (&'a K, &'a mut V), walk);

/// The state of a walk that lends: the buckets of the first and the last entry that are left, and how many are left.
pub(crate) struct WalkMut<'a, K, V, N: LinkType> {
    entries: &'a mut OrderedTable<K, V, N>,
    front: usize,
    back: usize,
    left: usize,
}

impl<'a, K, V, N: LinkType> WalkMut<'a, K, V, N> {
    pub(crate) fn new(entries: &'a mut OrderedTable<K, V, N>) -> Self {
        let left = entries.len();
        if left == 0 {
            return WalkMut { entries, front: 0, back: 0, left };
        }
        // If a promotion is noted, its links are written now. So a step reads only the links of the entry that it
        // lends, and no entry that an earlier step lent.
        entries.settle();
        let (front, back) = (entries.newest(), entries.oldest());
        WalkMut { entries, front, back, left }
    }

    /// Returns the entries that are left, from the back.
    #[cfg(feature = "hashlink")]
    pub(crate) fn left(&self) -> impl Iterator<Item = (&K, &V)> {
        let newer = |&(b, left): &(usize, usize)| (left > 1).then(|| (self.entries.newer_unless_first(b), left - 1));
        core::iter::successors((self.left > 0).then_some((self.back, self.left)), newer)
            .map(|(b, _)| self.entries.pair(b))
    }

    #[inline]
    fn lend(&mut self, b: usize) -> (&'a K, &'a mut V) {
        let (key, value): (*const K, *mut V) = {
            let (key, value) = self.entries.pair_mut(b);
            (key, value)
        };
        // SAFETY: each step lends another entry of a table that is borrowed for 'a, and no step reads an entry that an
        // earlier step lent.
        unsafe { (&*key, &mut *value) }
    }
}

impl<'a, K, V, N: LinkType> Iterator for WalkMut<'a, K, V, N> {
    type Item = (&'a K, &'a mut V);

    #[inline]
    fn next(&mut self) -> Option<Self::Item> {
        self.left = self.left.checked_sub(1)?;
        let b = self.front;
        if self.left > 0 {
            self.front = self.entries.older_unless_last(b);
        }
        Some(self.lend(b))
    }

    fn size_hint(&self) -> (usize, Option<usize>) {
        (self.left, Some(self.left))
    }
}

impl<K, V, N: LinkType> DoubleEndedIterator for WalkMut<'_, K, V, N> {
    #[inline]
    fn next_back(&mut self) -> Option<Self::Item> {
        self.left = self.left.checked_sub(1)?;
        let b = self.back;
        if self.left > 0 {
            self.back = self.entries.newer_unless_first(b);
        }
        Some(self.lend(b))
    }
}
