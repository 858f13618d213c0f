//! A clone that may fail.

use super::alloc::AllocError;

/// Rattle's `clone`, which may run out of memory. Then Rust's `clone` would not return.
pub trait TryClone: Sized {
    fn try_clone(&self) -> Result<Self, AllocError>;
}

impl<T: Clone> TryClone for T {
    #[inline]
    fn try_clone(&self) -> Result<Self, AllocError> {
        Ok(self.clone())
    }
}

/// The value of a clone that takes no memory.
#[inline]
pub fn never_fails<T>(made: Result<T, AllocError>) -> T {
    match made {
        Ok(value) => value,
        Err(AllocError) => unreachable!(),
    }
}
