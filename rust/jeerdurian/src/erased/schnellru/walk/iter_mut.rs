// Erased from crates/schnellru/src/walk/iter_mut.rt: do not edit.
#[allow(unused_imports)]
use crate::rattle_std::prelude::*;

use crate::erased::lru_limits::{KeyHasher, Limiter};
use crate::erased::schnellru::map::LruMap;
use crate::rattle_std::hash::Hash;

/// An iterator over the entries of a map, from both ends.
///
/// Follows schnellru's `IterMut`.

pub struct IterMut<'a, K, V, L: Limiter<K, V>, S> {
    map: &'a mut LruMap<K, V, L, S>,
    // The entries at the positions from `start` to `end` - 1 remain. The newest entry of the map has position 0.
    // `front` and `back` are the buckets of the first and the last remaining entry, so a step reads one entry.
    start: usize,
    end: usize,
    front: Option<usize>,
    back: Option<usize>,
}

impl<'a, K: Eq + Hash, V, L: Limiter<K, V>, S: KeyHasher<K>> IterMut<'a, K, V, L, S> {
    /// Returns how many entries remain.
    pub fn len(&self) -> usize {
        self.end.saturating_sub(self.start)
    }

    /// Lends the newest remaining entry until the next call of the iterator. The value may be written.
    ///
    /// A caller's proof cannot use the clause `writes_back`, so proved code tests `len`, and then calls `lend_next`.
    ///
    /// Cost: `O(1)`.
    pub fn next(&mut self) -> Option<(&K, &mut V)> {
        if self.start < self.end {
            return Some(self.lend_next());
        }
        None
    }

    /// Does what `next` does, but lends the oldest remaining entry.
    ///
    /// Cost: `O(1)`.
    pub fn next_back(&mut self) -> Option<(&K, &mut V)> {
        if self.start < self.end {
            return Some(self.lend_next_back());
        }
        None
    }

    /// Does what `next` does. At least one entry must be left.
    ///
    /// Cost: `O(1)`.
    pub fn lend_next(&mut self) -> (&K, &mut V) {
        let at = self.start;
        match self.front {
            Some(b) => {
                self.front = self.map.older(at, b);
                self.start += 1;
                self.map.pair_at_mut(at, b)
            }
            None => nowhere!(),
        }
    }

    /// Does what `next_back` does. At least one entry must be left.
    ///
    /// Cost: `O(1)`.

    pub fn lend_next_back(&mut self) -> (&K, &mut V) {
        let at = self.end - 1;
        match self.back {
            Some(b) => {
                self.back = self.map.newer(at, b);
                self.end = at;
                self.map.pair_at_mut(at, b)
            }
            None => nowhere!(),
        }
    }
}

impl<K: Eq + Hash, V, L: Limiter<K, V>, S: KeyHasher<K>> LruMap<K, V, L, S> {
    /// Returns an iterator that lends each value for writing, newest first. The order stays.
    ///
    /// `IterMut` is no `Iterator`, so a `for` loop cannot use it. Write `while let Some((key, value)) = walk.next()`,
    /// or call `for_each_mut`.
    ///
    /// Cost: `O(1)`.
    ///
    /// Follows schnellru's `LruMap::iter_mut`.
    pub fn iter_mut(&mut self) -> IterMut<'_, K, V, L, S> {
        let end = self.len();
        let (front, back) = self.ends();
        IterMut { map: self, start: 0, end, front, back }
    }

    /// Calls the closure with each key and its value, newest first. The order stays.
    ///
    /// Cost: `O(n)` for n entries.
    ///
    /// Follows `Iterator::for_each` over the `iter_mut` of std's `HashMap`.
    pub fn for_each_mut<F: FnMut(&K, &mut V)>(&mut self, mut f: F) {
        self.settle();
        // Shows the prover that a position fits a `usize`.
        let _ = self.len();
        let (mut next, _) = self.ends();
        let mut at = 0;
        'pairs: while let Some(b) = next {
            next = self.older(at, b);
            self.write_at(at, b, &mut f);
            at += 1;
        }
        self.show_map();
    }

    #[inline]
    fn write_at<F: FnMut(&K, &mut V)>(&mut self, at: usize, b: usize, f: &mut F) {
        let (key, value) = self.pair_at_mut(at, b);
        f(key, value);
    }
}
