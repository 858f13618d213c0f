// Erased from crates/group_table/src/table/in_place.rt: do not edit.
#[allow(unused_imports)]
use crate::rattle_std::prelude::*;

use crate::erased::group_table::control::{Control, DELETED, EMPTY, tag_of};
use crate::erased::group_table::entries::Entries;
use crate::erased::group_table::fields::put;
use crate::erased::group_table::link::LinkType;
use crate::erased::group_table::probe::{first_free, is_read_first};

// Inserts every entry again into cleared control bytes, and writes the new bucket of each entry to `links`.
pub(crate) fn place_again<T, N: LinkType, H: Fn(&T) -> u64>(
    before: &Control,
    control: &mut Control,
    entries: &mut Entries<T>,
    links: &mut Vec<N>,
    hash_of: &H,
) {
    for b in 0..before.buckets() {
        // Bucket b already has its new entry, or had no entry before.
        if control.byte(b) < DELETED || before.byte(b) >= DELETED {
            continue;
        }
        let mut hash = hash_of(entries.get(b));
        if is_read_first(control, hash, b) {
            control.set(b, tag_of(hash));
            (*at_mut!(links, b)) = N::from_usize(b);
            continue;
        }
        let mut old = b;
        let mut next = Some(entries.read(b));
        'turns: while let Some(entry) = next {
            let place = first_free(control, hash);
            // All entries in the places up to b are already inserted.
            let byte = if place <= b { EMPTY } else { before.byte(place) };
            next = put(control, entries, place, byte, tag_of(hash), entry);
            (*at_mut!(links, old)) = N::from_usize(place);
            old = place;
            if let Some(waiting) = &next {
                hash = hash_of(waiting);
            }
        }
    }
}
