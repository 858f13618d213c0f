// Erased from crates/schnellru/src/map/pop_if.rt: do not edit.
#[allow(unused_imports)]
use crate::rattle_std::prelude::*;

use crate::erased::lru_limits::{KeyHasher, Limiter};
use crate::erased::schnellru::map::LruMap;
use crate::rattle_std::hash::Hash;

impl<K: Eq + Hash, V, L: Limiter<K, V>, S: KeyHasher<K>> LruMap<K, V, L, S> {
    /// Removes and returns the oldest entry if the closure returns true for it. Otherwise, returns `None` and changes
    /// nothing.
    ///
    /// If each use writes the time into the value, `while map.pop_oldest_if(..).is_some() {}` removes the entries that
    /// were not used since a given time.
    ///
    /// Cost: `O(1)`, and one call of the closure.
    ///
    /// Follows std's `Vec::pop_if`.
    pub fn pop_oldest_if<F: FnOnce(&K, &V) -> bool>(&mut self, accepts: F) -> Option<(K, V)> {
        self.show_map();
        let (key, value) = self.peek_oldest()?;
        if !accepts(key, value) {
            return None;
        }
        self.pop_oldest()
    }

    /// Removes and returns the oldest entry if the closure succeeds for it. Returns `Ok(None)` if the map is empty.
    ///
    /// Cost: `O(1)`, and one call of the closure.
    ///
    /// # Errors
    ///
    /// Returns the error of the closure, and changes nothing.
    pub fn try_pop_oldest<E, F: FnOnce(&K, &V) -> Result<(), E>>(&mut self, release: F) -> Result<Option<(K, V)>, E> {
        self.show_map();
        match self.peek_oldest() {
            None => Ok(None),
            Some((key, value)) => match release(key, value) {
                Ok(()) => Ok(self.pop_oldest()),
                Err(error) => Err(error),
            },
        }
    }
}
