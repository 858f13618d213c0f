// Erased from crates/group_table/src/entries.rt: do not edit.
//! The entries of a table: a place for each bucket, in one block of memory.

#[allow(unused_imports)]
use crate::rattle_std::prelude::*;

use crate::erased::group_table::cells::{Block, Cells, Deed, allocate, deallocate, fits_in_block};
use crate::rattle_std::alloc::{AllocError, Global};

// A block of places, with the right to free the block.
struct Row<T> {
    block: Block<T>,
    cells: Cells<T>,
    deed: Deed<T, Global>,
}

// If there are no places, `row` is `None`. Only the control bytes know the number of places, so the caller of `free`
// passes this number, and shows that no place holds an entry.
pub(crate) struct Entries<T> {
    row: Option<Row<T>>,
    alloc: Global,
}

impl<T> Entries<T> {
    pub(crate) const fn new(alloc: Global) -> Entries<T> {
        Entries { row: None, alloc }
    }

    pub(crate) fn with_places(alloc: Global, count: usize) -> Result<Entries<T>, AllocError> {
        if !fits_in_block::<T>(count) {
            return Err(AllocError);
        }
        let (block, cells, deed) = allocate(&alloc, count)?;
        Ok(Entries { row: Some(Row { block, cells, deed }), alloc })
    }

    pub(crate) fn allocator(&self) -> Global {
        self.alloc
    }

    #[inline]
    pub(crate) fn get(&self, b: usize) -> &T {
        match &self.row {
            Some(row) => row.cells.get(row.block, b),
            None => nowhere!(),
        }
    }

    #[inline]
    pub(crate) fn get_mut(&mut self, b: usize) -> &mut T {
        match &mut self.row {
            Some(row) => {
                let block = row.block;
                row.cells.get_mut(block, b)
            }
            None => nowhere!(),
        }
    }

    #[inline]
    pub(crate) fn write(&mut self, b: usize, entry: T) {
        match &mut self.row {
            Some(row) => row.cells.write(row.block, b, entry),
            None => nowhere!(),
        }
    }

    #[inline]
    pub(crate) fn read(&mut self, b: usize) -> T {
        match &mut self.row {
            Some(row) => row.cells.read(row.block, b),
            None => nowhere!(),
        }
    }

    pub(crate) fn free(self, count: usize) {
        let Entries { row, alloc } = self;
        match row {
            Some(Row { block, cells, deed }) => deallocate(&alloc, block, count, cells, deed),
            None => {}
        }
    }
}
