//! More calls of vectors.

use super::alloc::{AllocError, Global};
use super::clone::TryClone;
use super::vec::Vec;

impl<T> Vec<T> {
    /// What `vec![in alloc; a, b]` makes.
    pub fn of_array<const N: usize>(alloc: Global, items: [T; N]) -> Result<Self, AllocError> {
        let mut made = Vec::with_capacity(alloc, N)?;
        for item in items {
            made.push_reserved(item);
        }
        Ok(made)
    }

    /// The vector of Rust's items.
    pub fn from_std(items: std::vec::Vec<T>) -> Self {
        let mut made = Vec::new(Global);
        *made.as_std_mut() = items;
        made
    }

    pub fn remove(&mut self, at: usize) -> T {
        self.as_std_mut().remove(at)
    }

    pub fn resize(&mut self, len: usize, item: T) -> Result<(), AllocError>
    where
        T: Copy,
    {
        let more = len.saturating_sub(self.len());
        self.as_std_mut().try_reserve(more).map_err(|_| AllocError)?;
        self.as_std_mut().resize(len, item);
        Ok(())
    }
}

impl<T: PartialEq> PartialEq for Vec<T> {
    fn eq(&self, other: &Self) -> bool {
        **self == **other
    }
}

impl<T> AsRef<[T]> for Vec<T> {
    fn as_ref(&self) -> &[T] {
        self
    }
}

impl<T: Clone> TryClone for Vec<T> {
    fn try_clone(&self) -> Result<Self, AllocError> {
        let mut copy = Vec::with_capacity(Global, self.len())?;
        copy.as_std_mut().extend_from_slice(self);
        Ok(copy)
    }
}
