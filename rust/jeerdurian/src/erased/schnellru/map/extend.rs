// Erased from crates/schnellru/src/map/extend.rt: do not edit.
#[allow(unused_imports)]
use crate::rattle_std::prelude::*;

use crate::erased::lru_limits::{Insertion, KeyHasher};
use crate::erased::schnellru::map::LruMap;
use crate::rattle_std::alloc::AllocError;
use crate::rattle_std::hash::Hash;

impl<K: Eq + Hash, V, L: Insertion<K, V, K>, S: KeyHasher<K>> LruMap<K, V, L, S> {
    /// Inserts entries one after another, as `insert` does.
    ///
    /// Cost: as `insert`, for each entry.
    ///
    /// # Errors
    ///
    /// The insert of an entry ran out of memory. The earlier entries were inserted, and the later entries were not. No
    /// contract says whether the iterator yielded later entries.
    ///
    /// Follows std's `Extend::extend`.
    pub fn try_extend<T: IntoIterator<Item = (K, V)>>(&mut self, entries: T) -> Result<(), AllocError>
where {
        for (key, value) in entries {
            self.insert(key, value)?;
        }
        self.show_map();
        Ok(())
    }
}
