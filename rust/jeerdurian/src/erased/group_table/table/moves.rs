// Erased from crates/group_table/src/table/moves.rt: do not edit.
#[allow(unused_imports)]
use crate::rattle_std::prelude::*;

use crate::erased::group_table::control::{Control, DELETED, tag_of};
use crate::erased::group_table::entries::Entries;
use crate::erased::group_table::fields::fill_bucket;
use crate::erased::group_table::link::LinkType;
use crate::erased::group_table::probe::first_free;
use crate::erased::group_table::table::Table;

impl<T> Table<T> {
    // Inserts an entry, but does not count the insertion.
    #[inline]
    pub(crate) fn place_fresh(&mut self, hash: u64, entry: T) -> usize {
        let b = first_free(&self.control, hash);
        fill_bucket(&mut self.control, &mut self.entries, b, tag_of(hash), entry);
        self.growth_left -= 1;
        self.len += 1;
        b
    }
}

// Moves each entry from `old` to `fresh`. `control` says which places of `old` hold an entry.
pub(crate) fn move_entries<T, N: LinkType, H: Fn(&T) -> u64>(
    control: &Control,
    old: &mut Entries<T>,
    fresh: &mut Table<T>,
    links: &mut Vec<N>,
    hash_of: &H,
) {
    for b in 0..control.buckets() {
        if control.byte(b) < DELETED {
            let entry = old.read(b);
            let hash = hash_of(&entry);
            (*at_mut!(links, b)) = N::from_usize(fresh.place_fresh(hash, entry));
        }
    }
}
