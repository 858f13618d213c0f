// Erased from crates/ordered_table/src/ordered/equal.rt: do not edit.
#[allow(unused_imports)]
use crate::rattle_std::prelude::*;

use crate::erased::group_table::LinkType;
use crate::erased::ordered_table::ordered::OrderedTable;

/// Two tables are equal if they have equal entries in the same order, in any buckets.
///
/// Cost: `O(n)` for n entries, and `O(1)` if the lengths differ.
impl<K: PartialEq, V: PartialEq, N: LinkType> PartialEq for OrderedTable<K, V, N> {
    fn eq(&self, other: &Self) -> bool {
        let mut theirs = other.iter();
        let mut ours = self.iter();
        if ours.len() != theirs.len() {
            return false;
        }
        'entries: while let Some((key, value)) = ours.next() {
            match theirs.next() {
                Some((other_key, other_value)) => {
                    if *key != *other_key || *value != *other_value {
                        return false;
                    }
                }
                None => return false,
            }
        }
        true
    }
}
