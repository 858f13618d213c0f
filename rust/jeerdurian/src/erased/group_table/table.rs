// Erased from crates/group_table/src/table.rt: do not edit.
#[allow(unused_imports)]
use crate::rattle_std::prelude::*;

use crate::erased::group_table::control::{Control, emptied_byte, room_taken, tag_of};
use crate::erased::group_table::entries::Entries;
use crate::erased::group_table::fields::{drop_entries, empty_bucket, fill_bucket};
use crate::erased::group_table::neighbours::ones_if_empty_neighbours;
use crate::erased::group_table::probe::{find_bucket, first_free};
use crate::erased::group_table::sizes::full_capacity;
use crate::rattle_std::alloc::{AllocError, Global};

mod copies;
mod figures;
mod in_place;
mod moves;
mod relocation;

/// A hash table of numbered buckets. Each bucket is empty, deleted or full.
///
/// A table sees no key and stores no hash. The caller passes the hash, and a search calls the caller's closure. An
/// entry keeps its bucket until the entry is taken out, or all entries are moved. `docs/TABLE.md` explains the rules.
///
/// Only `with_buckets`, `relocate`, `rehash` and `clone_with` allocate. `new`, `get`, `get_mut`, `take` and reads such
/// as `len` cost O(1). `find`, `place` and `try_place` cost O(1) if the hashes are spread, and at worst O(B) for B
/// buckets. All other calls cost O(B).
pub struct Table<T> {
    // If this field were next to `len`, the compiler would change both fields by a single load and store, which is
    // slower.
    growth_left: usize,
    control: Control,
    entries: Entries<T>,
    placed: u64,
    len: usize,
    moved: u64,
}

impl<T> Table<T> {
    /// Makes a table without buckets, and allocates nothing. `try_place` fails until `relocate` adds buckets.
    pub const fn new(alloc: Global) -> Self {
        Table {
            control: Control::new(alloc),
            entries: Entries::new(alloc),
            growth_left: 0,
            len: 0,
            placed: 0,
            moved: 0,
        }
    }

    /// Makes a table of `buckets` empty buckets. `buckets` must be 0, or a power of two from 4 on, and `buckets` + 16
    /// must be at most `isize::MAX`.
    ///
    /// Allocates twice: a `T` for each bucket, and then `buckets` + 16 control bytes. With 0 buckets it allocates
    /// nothing.
    ///
    /// # Errors
    ///
    /// Out of memory.
    pub fn with_buckets(alloc: Global, buckets: usize) -> Result<Self, AllocError> {
        if buckets == 0 {
            return Ok(Table::new(alloc));
        }
        // Allocates the entries first: if the table is too large for the memory, the call fails before it writes a
        // byte.
        let entries = Entries::with_places(alloc, buckets)?;
        let control = match Control::with_buckets(alloc, buckets) {
            Ok(control) => control,
            Err(error) => {
                entries.free(buckets);
                return Err(error);
            }
        };
        Ok(Table { control, entries, growth_left: full_capacity(buckets), len: 0, placed: 0, moved: 0 })
    }

    /// Returns the bucket of the first entry that `f` accepts.
    ///
    /// `f` is called in the order of the search, with entries whose hashes agree with `hash` in the top 7 bits. Tests,
    /// not proofs, show that `f` is called at most once with each entry. If the result is `None`, `f` rejected each
    /// entry with this hash.
    #[inline]
    pub fn find<F: FnMut(&T) -> bool>(&self, hash: u64, f: F) -> Option<usize> {
        if self.control.is_empty_at(hash) {
            return None;
        }
        find_bucket(&self.control, &self.entries, hash, f)
    }

    /// Returns the entry in a full bucket.
    #[inline]
    pub fn get(&self, b: usize) -> &T {
        full!(self.control.byte(b));
        self.entries.get(b)
    }

    /// Lends the entry in a full bucket for writing. Do not change the entry's hash, because the entry keeps its
    /// bucket.
    #[inline]
    pub fn get_mut(&mut self, b: usize) -> &mut T {
        full!(self.control.byte(b));
        self.entries.get_mut(b)
    }

    /// Takes the entry out of a full bucket.
    ///
    /// If each run of 16 neighbouring buckets that includes this bucket contains an empty bucket, this bucket becomes
    /// empty, and the growth left rises by one. Otherwise, it becomes deleted, so that searches still go past it. In a
    /// table of up to 16 buckets, it always becomes empty.
    #[inline(always)]
    pub fn take(&mut self, b: usize) -> T {
        full!(self.control.byte(b));
        self.len -= 1;
        let gives_room = ones_if_empty_neighbours(&self.control, b);
        // If `gives_room` is all ones, subtracting it adds 1.
        self.growth_left = self.growth_left.wrapping_sub(gives_room);
        let byte = emptied_byte(gives_room);
        empty_bucket(&mut self.control, &mut self.entries, b, byte)
    }

    /// Puts an entry with this hash into the first free bucket in the order of a search, and returns the bucket. There
    /// must be growth left.
    ///
    /// If the bucket was empty, the growth left falls by one. If the bucket was deleted, the growth left is unchanged.
    /// `place` allocates nothing, and moves no other entry.
    #[inline(always)]
    pub fn place(&mut self, hash: u64, entry: T) -> usize {
        let b = first_free(&self.control, hash);
        let spent = room_taken(self.control.byte(b));
        self.fill_free(b, spent, hash, entry);
        b
    }

    /// Does what `place` does. If no growth is left, only a deleted bucket may take the entry.
    ///
    /// # Errors
    ///
    /// Fails if there are no buckets, or if no growth is left and the first free bucket is empty. Returns the entry.
    /// Nothing has changed.
    #[inline(always)]
    pub fn try_place(&mut self, hash: u64, entry: T) -> Result<usize, T> {
        if is_without_buckets(&self.control, self.growth_left) {
            return Err(entry);
        }
        let b = first_free(&self.control, hash);
        let spent = room_taken(self.control.byte(b));
        if self.growth_left < spent {
            return Err(entry);
        }
        self.fill_free(b, spent, hash, entry);
        Ok(b)
    }

    #[inline(always)]
    fn fill_free(&mut self, b: usize, spent: usize, hash: u64, entry: T) {
        self.len += 1;
        fill_bucket(&mut self.control, &mut self.entries, b, tag_of(hash), entry);
        self.growth_left -= spent;
        self.placed = self.placed.saturating_add(1);
    }

    fn empty_buckets(&mut self) {
        self.control.clear();
        self.growth_left = full_capacity(self.control.buckets());
    }

    fn free_unused(self) {
        let (control, unused) = self.into_parts();
        unused.free(control.buckets());
    }

    fn into_parts(self) -> (Control, Entries<T>) {
        let whole = ::core::mem::ManuallyDrop::new(self);
        // SAFETY: each field is read once, and the whole is not dropped.
        let control = unsafe { ::core::ptr::read(&whole.control) };
        // SAFETY: each field is read once, and the whole is not dropped.
        let entries = unsafe { ::core::ptr::read(&whole.entries) };
        // SAFETY: each field is read once, and the whole is not dropped.
        let _growth_left = unsafe { ::core::ptr::read(&whole.growth_left) };
        // SAFETY: each field is read once, and the whole is not dropped.
        let _len = unsafe { ::core::ptr::read(&whole.len) };
        // SAFETY: each field is read once, and the whole is not dropped.
        let _placed = unsafe { ::core::ptr::read(&whole.placed) };
        // SAFETY: each field is read once, and the whole is not dropped.
        let _moved = unsafe { ::core::ptr::read(&whole.moved) };
        (control, entries)
    }
}

impl<T> Drop for Table<T> {
    fn drop(&mut self) {
        // What is left in its place has nothing to drop.
        ::core::mem::replace(self, Table::new(crate::rattle_std::alloc::Global)).take_apart();
    }
}

impl<T> Table<T> {
    fn take_apart(self) {
        let len = self.len;
        let (control, mut entries) = self.into_parts();
        drop_entries(&control, &mut entries, len);
        entries.free(control.buckets());
    }
}

impl<T> Table<T> {
    /// Drops all entries. Every bucket is empty afterwards. The number of buckets and the counts of insertions stay.
    ///
    /// Does nothing if no bucket is full or deleted.
    pub fn clear(&mut self) {
        let most = full_capacity(self.control.buckets());
        if self.growth_left == most {
            return;
        }
        drop_entries(&self.control, &mut self.entries, self.len);
        self.control.clear();
        self.growth_left = most;
        self.len = 0;
    }
}

// If growth is left, the table has buckets, so `control` is not read.
#[inline]
fn is_without_buckets(control: &Control, growth_left: usize) -> bool {
    growth_left == 0 && control.is_empty()
}
