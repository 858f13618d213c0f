// Erased from crates/schnellru/src/map/retain.rt: do not edit.
#[allow(unused_imports)]
use crate::rattle_std::prelude::*;

use crate::erased::lru_limits::{KeyHasher, Limiter};
use crate::erased::schnellru::map::LruMap;
use crate::erased::schnellru::map::remove::{discard, take_out};
use crate::rattle_std::hash::Hash;

impl<K: Eq + Hash, V, L: Limiter<K, V>, S: KeyHasher<K>> LruMap<K, V, L, S> {
    /// Removes the entries for which the closure returns false. The other entries keep their order.
    ///
    /// The closure is called with each entry, oldest first. The limiter is notified of each removal.
    ///
    /// Cost: `O(n)` for n entries.
    ///
    /// Follows std's `HashMap::retain`, whose closure may write the value.
    pub fn retain<F: FnMut(&K, &V) -> bool>(&mut self, keep: F) {
        self.retain_with(keep, &mut discard);
    }
}

impl<K: Eq + Hash, V, L: Limiter<K, V>, S: KeyHasher<K>> LruMap<K, V, L, S> {
    /// Does what `retain` does, and passes each removed entry to the callback, oldest first.
    ///
    /// Cost: as `retain`, plus the calls of the callback.
    pub fn retain_with<F: FnMut(&K, &V) -> bool, G: FnMut(K, V)>(&mut self, mut keep: F, sink: &mut G) {
        let mut left = self.len();
        let (_, mut next) = self.ends();
        'pairs: while let Some(b) = next {
            left -= 1;
            next = self.newer(left, b);
            if !self.passes(left, b, &mut keep) {
                let (key, value) = self.take_from(left, b);
                sink(key, value);
            }
        }
        self.show_map();
    }

    #[inline]
    fn passes<F: FnMut(&K, &V) -> bool>(&self, at: usize, b: usize, keep: &mut F) -> bool {
        let (key, value) = self.entries.pair(b);
        keep(key, value)
    }

    #[inline]
    fn take_from(&mut self, at: usize, b: usize) -> (K, V) {
        take_out(&mut self.entries, &mut self.limiter, b)
    }
}
