// Erased from crates/group_table/src/table/copies.rt: do not edit.
#[allow(unused_imports)]
use crate::rattle_std::prelude::*;

use crate::erased::group_table::control::Control;
use crate::erased::group_table::entries::Entries;
use crate::erased::group_table::fields::drop_first;
use crate::erased::group_table::full_buckets::FullBuckets;
use crate::erased::group_table::table::Table;
use crate::rattle_std::alloc::AllocError;

impl<T> Table<T> {
    /// Copies the table. The copy of each entry is the result of `f`, and is in the same bucket.
    ///
    /// `f` is called in rising order of the buckets, once for each entry, until it returns an error. Deleted buckets
    /// stay deleted, so the growth left is the same. The counts of insertions are copied. Allocates twice.
    ///
    /// # Errors
    ///
    /// Out of memory, or the error of `f`. The entries copied so far are dropped. For a table without buckets, the call
    /// allocates nothing and never fails.
    pub fn clone_with<F: Fn(&T) -> Result<T, AllocError>>(&self, f: F) -> Result<Self, AllocError> {
        let alloc = self.entries.allocator();
        if self.control.is_empty() {
            let mut none = Table::new(alloc);
            none.placed = self.placed;
            none.moved = self.moved;
            return Ok(none);
        }
        let control = self.control.copied(alloc)?;
        let entries = copy_entries(&control, &self.entries, &f)?;
        Ok(Table {
            control,
            entries,
            growth_left: self.growth_left,
            len: self.len,
            placed: self.placed,
            moved: self.moved,
        })
    }
}

fn copy_entries<T, F: Fn(&T) -> Result<T, AllocError>>(
    control: &Control,
    entries: &Entries<T>,
    f: &F,
) -> Result<Entries<T>, AllocError> {
    let count = control.buckets();
    let mut copies = Entries::with_places(entries.allocator(), count)?;
    let mut walk = FullBuckets::of(control);
    let mut b = walk.next(control);
    'entries: while b < count {
        match if_unwound(
            &mut copies,
            |copies| {
                drop_first(control, copies, b);
                core::mem::replace(copies, Entries::new(entries.allocator())).free(count);
            },
            |_| f(entries.get(b)),
        ) {
            Ok(copy) => copies.write(b, copy),
            Err(error) => {
                drop_first(control, &mut copies, b);
                copies.free(count);
                return Err(error);
            }
        }
        b = walk.next(control);
    }
    Ok(copies)
}
