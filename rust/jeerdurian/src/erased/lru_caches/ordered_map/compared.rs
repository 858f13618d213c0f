// Erased from crates/lru_caches/src/ordered_map/compared.rt: do not edit.
#[allow(unused_imports)]
use crate::rattle_std::prelude::*;

use crate::erased::lru_caches::ordered_map::OrderedMap;
use crate::erased::schnellru::KeyHasher;
use crate::rattle_std::fmt;
use crate::rattle_std::hash::Hash;

/// Maps are equal if they have equal entries in the same order.
///
/// Cost: `O(1)` if the lengths differ, else `O(n)` for n entries.
///
/// Follows std's `Vec`. For the maps of indexmap, the order does not matter.
impl<K: Eq + Hash, V: PartialEq, S: KeyHasher<K>> PartialEq for OrderedMap<K, V, S> {
    fn eq(&self, other: &Self) -> bool {
        self.map == other.map
    }
}

/// Shows the entries, oldest first, as `{1: 11, 2: 20}`.
///
/// Follows std's `HashMap`.
impl<K: Eq + Hash + fmt::Debug, V: fmt::Debug, S: KeyHasher<K>> fmt::Debug for OrderedMap<K, V, S> {
    fn fmt(&self, f: &mut fmt::Formatter<'_>) -> fmt::Result {
        let mut shown = f.debug_map();
        for (key, value) in self.iter() {
            shown.entry(key, value);
        }
        shown.finish()
    }
}
