//! The memory of the tests: each thread has its own, so a test may use all of it up.

use std::alloc::{GlobalAlloc, Layout, System};
use std::cell::Cell;

/// The bytes of a thread.
const MOST: usize = 1 << 33;

/// The bytes of a piece. A block takes whole pieces; the piece of a small block later serves only blocks of its class.
const PIECE: usize = 4096;

#[global_allocator]
static MEMORY: Limited = Limited;

thread_local! {
    /// The bytes of the pieces that were taken.
    static TAKEN: Cell<usize> = const { Cell::new(0) };
    /// The free pieces of each class.
    static FREE: [Cell<usize>; 12] = const { [const { Cell::new(0) }; 12] };
}

/// The class of a block of at most half a piece: a block of class c has at most 2^c bytes.
fn class(bytes: usize) -> Option<usize> {
    (bytes <= PIECE / 2).then(|| bytes.next_power_of_two().ilog2().clamp(3, 11) as usize)
}

/// Takes the memory of a block, and returns whether there was enough.
fn take(bytes: usize) -> bool {
    if let Some(class) = class(bytes) {
        let free = FREE.with(|free| free[class].get());
        if free > 0 {
            FREE.with(|all| all[class].set(free - 1));
            return true;
        }
    }
    let bytes = bytes.next_multiple_of(PIECE);
    let fits = bytes <= MOST - TAKEN.get();
    if fits {
        TAKEN.set(TAKEN.get() + bytes);
    }
    fits
}

/// Gives back the memory of a block. Another thread may have taken the block.
fn give_back(bytes: usize) {
    match class(bytes) {
        Some(class) => FREE.with(|free| free[class].set(free[class].get() + 1)),
        None => TAKEN.set(TAKEN.get().saturating_sub(bytes.next_multiple_of(PIECE))),
    }
}

struct Limited;

// SAFETY: all blocks come from `System`.
unsafe impl GlobalAlloc for Limited {
    unsafe fn alloc(&self, layout: Layout) -> *mut u8 {
        if !take(layout.size()) {
            return std::ptr::null_mut();
        }
        // SAFETY: as the caller says.
        let block = unsafe { System.alloc(layout) };
        if block.is_null() {
            give_back(layout.size());
        }
        block
    }

    unsafe fn dealloc(&self, block: *mut u8, layout: Layout) {
        give_back(layout.size());
        // SAFETY: as the caller says.
        unsafe { System.dealloc(block, layout) };
    }
}
