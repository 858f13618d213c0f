// Erased from crates/group_table/src/table/relocation.rt: do not edit.
//! The calls of `Table` that move every entry. `T` has no bound `Drop`, so the compiler rejects code that loses an
//! entry.

#[allow(unused_imports)]
use crate::rattle_std::prelude::*;

use crate::erased::group_table::control::Control;
use crate::erased::group_table::fields::no_links;
use crate::erased::group_table::link::LinkType;
use crate::erased::group_table::sizes::full_capacity;
use crate::erased::group_table::table::Table;
use crate::erased::group_table::table::in_place::place_again;
use crate::erased::group_table::table::moves::move_entries;
use crate::rattle_std::alloc::AllocError;
use crate::rattle_std::mem;

impl<T> Table<T> {
    /// Moves all entries, in rising order of their buckets, into a fresh table of `buckets` buckets.
    ///
    /// A table without entries may move to 0 buckets, which frees its memory.
    ///
    /// For each old bucket, the result contains the link to the new bucket of its entry, or `MAX` if the old bucket was
    /// free. For a table without entries, the result is empty. `hash_of` is called once for each entry. Afterwards no
    /// bucket is deleted. Takes time O(old buckets + new buckets).
    ///
    /// # Errors
    ///
    /// Out of memory. Nothing has changed. With 0 buckets the call never fails.
    pub fn relocate<N: LinkType, H: Fn(&T) -> u64>(
        &mut self,
        buckets: usize,
        hash_of: H,
    ) -> Result<Vec<N>, AllocError> {
        let alloc = self.entries.allocator();
        let mut fresh = Table::with_buckets(alloc, buckets)?;
        if self.len == 0 {
            fresh.placed = self.placed;
            fresh.moved = self.moved;
            mem::replace(self, fresh).free_unused();
            return Ok(Vec::new(alloc));
        }
        let mut links = match no_links(alloc, self.buckets()) {
            Ok(links) => links,
            Err(error) => {
                fresh.free_unused();
                return Err(error);
            }
        };
        let placed = self.placed;
        let moved = self.moved.saturating_add(self.len as u64);
        let (control, mut entries) = mem::replace(self, fresh).into_parts();
        move_entries(&control, &mut entries, self, &mut links, &hash_of);
        self.placed = placed;
        self.moved = moved;
        entries.free(control.buckets());
        Ok(links)
    }

    /// Moves all entries within the table, so that no bucket is deleted afterwards. Returns what `relocate` returns.
    ///
    /// `hash_of` is called once for each entry.
    ///
    /// # Errors
    ///
    /// Out of memory. Nothing has changed. If the table has no entries, the call only empties the buckets, and never
    /// fails.
    pub fn rehash<N: LinkType, H: Fn(&T) -> u64>(&mut self, hash_of: H) -> Result<Vec<N>, AllocError> {
        let alloc = self.entries.allocator();
        if self.len == 0 {
            self.empty_buckets();
            return Ok(Vec::new(alloc));
        }
        let buckets = self.buckets();
        let mut links = no_links(alloc, buckets)?;
        let fresh = Control::with_buckets(alloc, buckets)?;
        let before = mem::replace(&mut self.control, fresh);
        place_again(&before, &mut self.control, &mut self.entries, &mut links, &hash_of);
        self.growth_left = full_capacity(buckets) - self.len;
        self.moved = self.moved.saturating_add(self.len as u64);
        Ok(links)
    }
}
