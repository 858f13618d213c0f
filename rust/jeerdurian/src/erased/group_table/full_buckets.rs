// Erased from crates/group_table/src/full_buckets.rt: do not edit.
//! The full buckets of a table, in rising order.

#[allow(unused_imports)]
use crate::rattle_std::prelude::*;

use crate::erased::group_table::control::Control;
use crate::erased::group_table::group::{lowest_lane, without_lowest};

// The position of a walk over the full buckets. `lanes` is a mask of the full buckets that the walk has still to visit
// in the current group, so that a step does not load the group again.

pub(crate) struct FullBuckets {
    start: usize,
    lanes: u16,
}

impl FullBuckets {
    pub(crate) fn of(control: &Control) -> FullBuckets {
        FullBuckets { start: 0, lanes: control.group(0).match_full() }
    }

    #[inline]
    pub(crate) fn next(&mut self, control: &Control) -> usize {
        let count = control.buckets();
        'groups: while self.lanes == 0 {
            let start = self.start + 16;
            if start >= count {
                return count;
            }
            self.start = start;
            self.lanes = control.group(start).match_full();
        }
        let b = (self.start + lowest_lane(self.lanes)).min(count);
        self.lanes = without_lowest(self.lanes);
        b
    }
}
