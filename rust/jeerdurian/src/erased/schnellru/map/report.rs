// Erased from crates/schnellru/src/map/report.rt: do not edit.
#[allow(unused_imports)]
use crate::rattle_std::prelude::*;

use crate::erased::lru_limits::{KeyHasher, Limiter};
use crate::erased::lru_model::MoveReport;
use crate::erased::schnellru::map::LruMap;
use crate::rattle_std::hash::Hash;

impl<K: Eq + Hash, V, L: Limiter<K, V>, S: KeyHasher<K>> LruMap<K, V, L, S> {
    /// Returns how many entries inserts moved and stored, and how many `shrink_to_fit` rehashed. Each count stops at
    /// `u64::MAX`.
    ///
    /// `moved` is at most `2 * placed + shrunk`. Cost: `O(1)`.
    pub fn move_report(&self) -> MoveReport {
        self.show_map();
        MoveReport { moved: self.moved, placed: self.entries.placed(), shrunk: self.shrunk }
    }
}
