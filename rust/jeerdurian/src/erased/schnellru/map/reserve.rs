// Erased from crates/schnellru/src/map/reserve.rt: do not edit.
#[allow(unused_imports)]
use crate::rattle_std::prelude::*;

use crate::erased::group_table::full_capacity;
use crate::erased::lru_limits::{KeyHasher, Limiter};
use crate::erased::lru_model::ReserveError;
use crate::erased::schnellru::map::LruMap;
use crate::rattle_std::hash::Hash;

impl<K: Eq + Hash, V, L: Limiter<K, V>, S: KeyHasher<K>> LruMap<K, V, L, S> {
    /// Reserves growth for n more entries: afterwards `guaranteed_capacity` is at least `len` + n.
    ///
    /// The entries and the counts of `move_report` stay. If enough growth is left, nothing happens. Otherwise, if
    /// `len` + n is at most half of the entries that the table may hold, the table is rehashed, and keeps its size. If
    /// `len` + n is more, the limiter is queried for a larger table.
    ///
    /// Cost: `O(1)` if there is enough growth left, else `O(old buckets + new buckets)`.
    ///
    /// # Errors
    ///
    /// After an error, the entries and the table are unchanged.
    ///
    /// - `TooLarge`: `len` + n overflows, or the table would need more buckets than the links permit, or more than
    ///   `isize::MAX - 15` bytes. The map does not rehash its table instead, even if the entries would fit after a
    ///   rehash.
    ///
    /// - `Refused`: the limiter refused the larger table.
    ///
    /// - `Memory`: out of memory.
    ///
    /// After `Refused` and `Memory`, the limiter stays as `on_grow` left it.
    ///
    /// Follows schnellru's `LruMap::try_reserve`.
    pub fn try_reserve(&mut self, n: usize) -> Result<(), ReserveError> {
        let pairs = match self.len().checked_add(n) {
            Some(pairs) => pairs,
            None => return Err(ReserveError::TooLarge),
        };
        if n <= self.growth_left() {
            return Ok(());
        }
        let buckets = self.bucket_count();
        if full_capacity(buckets) / 2 < pairs {
            return self.reserve_larger(n);
        }
        match self.move_to(buckets) {
            Ok(()) => Ok(()),
            Err(_) => Err(ReserveError::Memory),
        }
    }

    fn reserve_larger(&mut self, n: usize) -> Result<(), ReserveError> {
        match self.next_table(n) {
            Some((count, bytes)) => {
                if !self.limiter.on_grow(bytes) {
                    return Err(ReserveError::Refused);
                }
                match self.move_to(count) {
                    Ok(()) => Ok(()),
                    Err(_) => Err(ReserveError::Memory),
                }
            }
            None => Err(ReserveError::TooLarge),
        }
    }
}
