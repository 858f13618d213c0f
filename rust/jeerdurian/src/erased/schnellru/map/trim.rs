// Erased from crates/schnellru/src/map/trim.rt: do not edit.
#[allow(unused_imports)]
use crate::rattle_std::prelude::*;

use crate::erased::lru_limits::{KeyHasher, Limiter};
use crate::erased::schnellru::map::LruMap;
use crate::erased::schnellru::map::remove::discard;
use crate::rattle_std::hash::Hash;
use crate::rattle_std::mem;

impl<K: Eq + Hash, V, L: Limiter<K, V>, S: KeyHasher<K>> LruMap<K, V, L, S> {
    /// Evicts the oldest entries while the limiter is over its limit.
    ///
    /// Evicts nothing under `ByMemoryUsage`, which is never over its limit.
    ///
    /// Cost: `O(1)` for each entry that is evicted.
    ///
    /// Follows Guava's `Cache::cleanUp`.
    pub fn trim(&mut self) {
        self.trim_with(&mut discard);
    }

    /// Sets another limiter, and evicts the oldest entries while the new limiter is over its limit. Returns the old
    /// limiter.
    ///
    /// The running total of a new limiter, such as `ByCost`, must begin as the total cost of the stored entries,
    /// because the limiter is not notified of them. `map.limiter().with_limit(n)` begins with the right total.
    ///
    /// Cost: `O(1)` for each entry that is evicted.
    ///
    /// Follows `resize` of the crate `lru`.
    pub fn set_limiter(&mut self, limiter: L) -> L {
        self.set_limiter_with(limiter, &mut discard)
    }
}

impl<K: Eq + Hash, V, L: Limiter<K, V>, S: KeyHasher<K>> LruMap<K, V, L, S> {
    /// Does what `trim` does, and passes each evicted entry to the callback, oldest first.
    ///
    /// Cost: as `trim`, plus the calls of the callback.
    pub fn trim_with<F: FnMut(K, V)>(&mut self, sink: &mut F) {
        if !self.is_empty() {
            self.evict_over_limit(sink);
        }
        self.show_map();
    }

    /// Does what `set_limiter` does, and passes each evicted entry to the callback, oldest first.
    ///
    /// Cost: as `set_limiter`, plus the calls of the callback.
    pub fn set_limiter_with<F: FnMut(K, V)>(&mut self, limiter: L, sink: &mut F) -> L {
        let old = mem::replace(&mut self.limiter, limiter);
        self.trim_with(sink);
        old
    }
}
