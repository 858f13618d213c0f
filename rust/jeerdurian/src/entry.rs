//! A handle on an entry of a map.

use crate::erased::schnellru as proved;
use crate::limiter::{Calls, Limiter};
use core::fmt::{Debug, Formatter, Result};
use core::hash::{BuildHasher, Hash};

/// An entry that [`More::find_entry`](crate::More::find_entry) has found. Its calls do not search again.
///
/// What the docs of its calls say about entries, order and result is proved of the sources.
pub struct OccupiedEntry<'a, K, V, L: Limiter<K, V>, S> {
    pub(crate) entry: proved::OccupiedEntry<'a, K, V, Calls<L>, S>,
}

impl<'a, K: Hash + PartialEq, V, L: Limiter<K, V>, S: BuildHasher> OccupiedEntry<'a, K, V, L, S> {
    /// Returns the stored key, not the equal key of the look-up. Cost: `O(1)`.
    #[inline]
    pub fn key(&self) -> &K {
        self.entry.key()
    }

    /// Returns the value. Cost: `O(1)`.
    #[inline]
    pub fn get(&self) -> &V {
        self.entry.get()
    }

    /// Lends the value for writing. The order of use stays. The limiter is not notified of writes. Cost: `O(1)`.
    #[inline]
    pub fn get_mut(&mut self) -> &mut V {
        self.entry.get_mut()
    }

    /// Lends the value for writing as long as the map is borrowed, as `get_mut` does. Cost: `O(1)`.
    #[inline]
    pub fn into_mut(self) -> &'a mut V {
        self.entry.into_mut()
    }

    /// Makes the entry the newest. Cost: `O(1)`.
    #[inline]
    pub fn promote(&mut self) {
        self.entry.promote();
    }

    /// Makes the entry the oldest, the next to be evicted. Cost: `O(1)`.
    #[inline]
    pub fn demote(&mut self) {
        self.entry.demote();
    }

    /// Removes the entry. Returns the stored key and the value, as the limiter left them. Cost: `O(1)`.
    #[inline]
    pub fn remove_entry(self) -> (K, V) {
        self.entry.remove_entry()
    }

    /// Removes the entry. Returns the value, as the limiter left it. Cost: `O(1)`.
    #[inline]
    pub fn remove(self) -> V {
        // Not `.1`, so that the value is dropped, too, if the drop of the key panics.
        let (_, value) = self.remove_entry();
        value
    }
}

impl<K, V, L, S> Debug for OccupiedEntry<'_, K, V, L, S>
where
    K: Hash + PartialEq + Debug,
    V: Debug,
    L: Limiter<K, V>,
    S: BuildHasher,
{
    fn fmt(&self, f: &mut Formatter<'_>) -> Result {
        f.debug_struct("OccupiedEntry").field("key", self.key()).field("value", self.get()).finish()
    }
}
