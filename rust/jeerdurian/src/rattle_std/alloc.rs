//! Requests for memory by bytes and alignment, which may fail.

use core::alloc::Layout;

/// Out of memory.
#[derive(Clone, Copy, Debug, PartialEq, Eq)]
pub struct AllocError;

impl core::fmt::Display for AllocError {
    fn fmt(&self, f: &mut core::fmt::Formatter<'_>) -> core::fmt::Result {
        f.write_str("out of memory")
    }
}

impl core::error::Error for AllocError {}

/// Blocks of memory.
pub trait Allocator {
    fn allocate(&self, bytes: usize, align: usize) -> Result<*mut u8, AllocError>;

    /// # Safety
    ///
    /// The block came from `allocate` with these bytes and this alignment.
    unsafe fn deallocate(&self, start: *mut u8, bytes: usize, align: usize);
}

/// The allocator of the program.
#[derive(Clone, Copy, Debug)]
pub struct Global;

impl Allocator for Global {
    #[inline]
    fn allocate(&self, bytes: usize, align: usize) -> Result<*mut u8, AllocError> {
        let layout = Layout::from_size_align(bytes, align).map_err(|_| AllocError)?;
        if bytes == 0 {
            return Ok(core::ptr::without_provenance_mut(align));
        }
        // SAFETY: the size of the layout is not 0.
        let start = unsafe { ::alloc::alloc::alloc(layout) };
        if start.is_null() { Err(AllocError) } else { Ok(start) }
    }

    #[inline]
    unsafe fn deallocate(&self, start: *mut u8, bytes: usize, align: usize) {
        if bytes != 0 {
            // SAFETY: as the caller says; `allocate` made the same layout.
            unsafe { ::alloc::alloc::dealloc(start, Layout::from_size_align_unchecked(bytes, align)) };
        }
    }
}
