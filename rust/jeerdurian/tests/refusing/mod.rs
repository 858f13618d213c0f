//! The system's allocator, which counts allocated bytes, and on request refuses one request of a thread.

use std::alloc::{GlobalAlloc, Layout, System};
use std::cell::Cell;

thread_local! {
    static REFUSED: Cell<u64> = const { Cell::new(0) };
    static HELD: Cell<i64> = const { Cell::new(0) };
    static MOST: Cell<i64> = const { Cell::new(0) };
    static ALIGNED: Cell<i64> = const { Cell::new(0) };
}

struct Refusing;

// SAFETY: it allocates by the system's allocator, or returns null.
unsafe impl GlobalAlloc for Refusing {
    unsafe fn alloc(&self, layout: Layout) -> *mut u8 {
        let left = REFUSED.get();
        REFUSED.set(left.saturating_sub(1));
        if left == 1 {
            return core::ptr::null_mut();
        }
        HELD.set(HELD.get() + layout.size() as i64);
        MOST.set(MOST.get().max(HELD.get()));
        ALIGNED.set(ALIGNED.get() + layout.align() as i64);
        // SAFETY: as the caller says.
        unsafe { System.alloc(layout) }
    }

    unsafe fn dealloc(&self, start: *mut u8, layout: Layout) {
        HELD.set(HELD.get() - layout.size() as i64);
        ALIGNED.set(ALIGNED.get() - layout.align() as i64);
        // SAFETY: as the caller says.
        unsafe { System.dealloc(start, layout) }
    }
}

#[global_allocator]
static ALLOCATOR: Refusing = Refusing;

/// Calls `f` with the n-th request refused. Returns its result, and whether that request was made.
#[allow(dead_code)]
pub fn refused<R>(n: u64, f: impl FnOnce() -> R) -> (R, bool) {
    REFUSED.set(n);
    let result = f();
    let was_made = REFUSED.replace(0) == 0;
    (result, was_made)
}

/// Calls `f`. Returns its result, and the number of its requests.
#[allow(dead_code)]
pub fn requests<R>(f: impl FnOnce() -> R) -> (R, u64) {
    REFUSED.set(u64::MAX);
    let result = f();
    (result, u64::MAX - REFUSED.replace(0))
}

/// Returns how many bytes the thread has allocated and not freed.
#[allow(dead_code)]
pub fn held() -> i64 {
    HELD.get()
}

/// Calls `f`. Returns its result, and the most bytes that the thread had allocated during the call.
#[allow(dead_code)]
pub fn most_held<R>(f: impl FnOnce() -> R) -> (R, i64) {
    MOST.set(HELD.get());
    let result = f();
    (result, MOST.get())
}

/// Returns the sum of the alignments of the blocks that the thread has allocated and not freed.
#[allow(dead_code)]
pub fn aligned() -> i64 {
    ALIGNED.get()
}
