//! A box whose allocation may fail.

use super::alloc::{AllocError, Global};
use ::alloc::boxed::Box as StdBox;
use ::alloc::vec::Vec;
use core::ops::{Deref, DerefMut};

/// An item on the heap. Only vectors return an error if the allocation fails, so the box is made of a vector of one
/// item.
#[derive(Debug)]
pub struct Box<T>(StdBox<[T; 1]>);

impl<T> Box<T> {
    pub fn new(_: Global, item: T) -> Result<Self, AllocError> {
        let mut items = Vec::new();
        items.try_reserve_exact(1).map_err(|_| AllocError)?;
        items.push(item);
        items.try_into().map(Box).map_err(|_| AllocError)
    }
}

impl<T> Deref for Box<T> {
    type Target = T;

    #[inline]
    fn deref(&self) -> &T {
        &self.0[0]
    }
}

impl<T> DerefMut for Box<T> {
    #[inline]
    fn deref_mut(&mut self) -> &mut T {
        &mut self.0[0]
    }
}
