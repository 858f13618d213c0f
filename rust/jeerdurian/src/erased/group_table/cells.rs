// Erased from crates/group_table/src/cells.rt: do not edit.
//! Places for entries in one block of memory. Only the owner of the places knows which of them hold an entry.

#[allow(unused_imports)]
use crate::rattle_std::prelude::*;

use crate::rattle_std::alloc::{AllocError, Allocator};
use crate::rattle_std::marker::{PhantomData, Send, Sync};
use crate::rattle_std::mem::{align_of, size_of};

// The address of the first place. It owns nothing.
pub(crate) struct Block<T> {
    start: *mut T,
}

impl<T> Clone for Block<T> {
    fn clone(&self) -> Self {
        let made = || -> Result<Block<T>, AllocError> { Ok(*self) };
        never_fails(made())
    }
}

impl<T> Copy for Block<T> {}

// SAFETY: a `Block` is an address. Only code that has the `Cells` of the block reads or writes at this address. `Cells`
// are `Send` or `Sync` only if `T` is.
unsafe impl<T> Send for Block<T> {}

unsafe impl<T> Sync for Block<T> {}

// The owner of the places and of the entries in them. It is zero-sized.
pub(crate) struct Cells<T> {
    mark: PhantomData<*const T>,
}

// SAFETY: `Cells` own the entries as a `Box<T>` does, so they may be sent and shared if the entries may.
unsafe impl<T: Send> Send for Cells<T> {}

unsafe impl<T: Sync> Sync for Cells<T> {}

// The right to give a block of `count` places back to its allocator. It is zero-sized.
pub(crate) struct Deed<T, A: Allocator> {
    mark: PhantomData<*const (T, A)>,
}

// SAFETY: a `Deed` only gives memory back to the allocator, so it may be sent if the allocator may.
unsafe impl<T, A: Allocator + Send> Send for Deed<T, A> {}

// SAFETY: a `Deed` has no method that takes a `&`.
unsafe impl<T, A: Allocator> Sync for Deed<T, A> {}

impl<T> core::panic::UnwindSafe for Block<T> {}
impl<T: core::panic::UnwindSafe> core::panic::UnwindSafe for Cells<T> {}
impl<T, A: Allocator> core::panic::UnwindSafe for Deed<T, A> {}
#[inline]
pub(crate) const fn bytes_of<T>() -> usize {
    size_of::<T>()
}

#[inline]
pub(crate) fn fits_in_block<T>(count: usize) -> bool {
    match count.checked_mul(bytes_of::<T>()) {
        Some(bytes) => count < 1 << 63 && bytes < 1 << 63,
        None => false,
    }
}

pub(crate) fn allocate<T, A: Allocator>(
    alloc: &A,
    count: usize,
) -> Result<(Block<T>, Cells<T>, Deed<T, A>), AllocError> {
    match alloc.allocate(count * size_of::<T>(), align_of::<T>()) {
        Ok(bytes) => {
            let block = Block { start: bytes as *mut T };
            Ok((block, Cells { mark: PhantomData }, Deed { mark: PhantomData }))
        }
        Err(error) => Err(error),
    }
}

pub(crate) fn deallocate<T, A: Allocator>(alloc: &A, block: Block<T>, count: usize, cells: Cells<T>, deed: Deed<T, A>) {
    let Cells { mark: _ } = cells;
    let Deed { mark: _ } = deed;
    // SAFETY: `deed` shows that this allocator allocated this block with this size. No place holds an entry.
    unsafe {
        alloc.deallocate(block.start as *mut u8, count * size_of::<T>(), align_of::<T>());
    }
}

impl<T> Cells<T> {
    #[inline]
    pub(crate) fn write(&mut self, block: Block<T>, b: usize, entry: T) {
        // SAFETY: `self` owns place b of the block, and place b holds no entry.
        unsafe { block.start.add(b).write(entry) }
    }

    #[inline]
    pub(crate) fn read(&mut self, block: Block<T>, b: usize) -> T {
        // SAFETY: place b holds an entry, which `self` no longer owns afterwards.
        unsafe { block.start.add(b).read() }
    }

    #[inline]
    pub(crate) fn get(&self, block: Block<T>, b: usize) -> &T {
        // SAFETY: place b holds an entry, which `self` lends for as long as `self` is borrowed.
        unsafe { &*block.start.add(b) }
    }

    #[inline]
    pub(crate) fn get_mut(&mut self, block: Block<T>, b: usize) -> &mut T {
        // SAFETY: place b holds an entry, which `self` lends to nobody else.
        unsafe { &mut *block.start.add(b) }
    }
}
