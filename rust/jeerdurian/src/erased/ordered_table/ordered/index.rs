// Erased from crates/ordered_table/src/ordered/index.rt: do not edit.
#[allow(unused_imports)]
use crate::rattle_std::prelude::*;

use crate::erased::group_table::LinkType;
use crate::erased::ordered_table::ordered::OrderedTable;

impl<K, V, N: LinkType> OrderedTable<K, V, N> {
    /// Returns the bucket at this index in the order, if there is one. The newest bucket has index 0.
    ///
    /// Cost: `O(index)`, and `O(1)` if the index is too large.
    pub fn at_index(&self, index: usize) -> Option<usize> {
        if index >= self.len() {
            return None;
        }
        let mut at = self.newest();
        'links: for _ in 0..index {
            at = self.older_unless_last(at);
        }
        Some(at)
    }

    /// Returns the position of the full bucket `b` in the order. The newest bucket has the position 0.
    ///
    /// Cost: `O(index)`.
    pub fn index_of(&self, b: usize) -> usize {
        let _ = self.len();
        let first = self.newest();
        let mut at = b;
        let mut index = 0;
        'links: while at != first {
            at = self.newer_unless_first(at);
            index += 1;
        }
        index
    }
}
