// Erased from crates/schnellru/src/map/update.rt: do not edit.
#[allow(unused_imports)]
use crate::rattle_std::prelude::*;

use crate::erased::lru_limits::{Insertion, KeyHasher, Limiter, LookupKey};
use crate::erased::lru_model::Updated;
use crate::erased::schnellru::map::LruMap;
use crate::erased::schnellru::map::remove::discard;
use crate::rattle_std::hash::Hash;

impl<K: Eq + Hash, V, L: Limiter<K, V>, S: KeyHasher<K>> LruMap<K, V, L, S> {
    /// Offers the limiter a new value for a stored key. The entry keeps its place in the order of use.
    ///
    /// If the limiter accepts the value, the oldest entries are evicted while the limiter is over its limit. The
    /// updated entry may be evicted, too. If the limiter rejects the value, the entry is removed. If the key is not
    /// there, nothing changes.
    ///
    /// Cost: `O(1)` expected, and `O(1)` for each entry that is evicted.
    ///
    /// Follows `LinkedHashMap::replace` of the crate `hashlink`.
    pub fn update<I: LookupKey<K>>(&mut self, key: I, value: V) -> Updated<V>
    where
        L: Insertion<K, V, I>,
    {
        self.update_with(key, value, &mut discard)
    }
}

impl<K: Eq + Hash, V, L: Limiter<K, V>, S: KeyHasher<K>> LruMap<K, V, L, S> {
    /// Does what `update` does, and passes each evicted entry to the callback, oldest first. If the entry is removed
    /// because its new value is rejected, the callback gets this entry.
    ///
    /// Cost: as `update`, plus the calls of the callback.
    pub fn update_with<I: LookupKey<K>, F: FnMut(K, V)>(&mut self, key: I, value: V, sink: &mut F) -> Updated<V>
    where
        L: Insertion<K, V, I>,
    {
        let updated = self.update_entry(key, value, sink);
        self.show_map();
        updated
    }

    fn update_entry<I: LookupKey<K>, F: FnMut(K, V)>(&mut self, key: I, value: V, sink: &mut F) -> Updated<V>
    where
        L: Insertion<K, V, I>,
    {
        let b = match self.find(&key) {
            Some(b) => b,
            None => return Updated::Absent(value),
        };
        let (accepted, unkept) = self.offer_at(b, key, value, sink);
        if !accepted {
            return Updated::Rejected(unkept);
        }
        self.evict_over_limit(sink);
        Updated::Replaced(unkept)
    }
}
