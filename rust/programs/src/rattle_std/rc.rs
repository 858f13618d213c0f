//! Shared values.

use super::alloc::{AllocError, Global};

/// Rust's `Rc`.
#[derive(Debug, PartialEq, Eq, Hash)]
pub struct Rc<T>(std::rc::Rc<T>);

impl<T> Rc<T> {
    /// Without memory the program ends, where Rattle's `new` returns an error.
    pub fn new(_: Global, value: T) -> Result<Self, AllocError> {
        Ok(Rc(std::rc::Rc::new(value)))
    }

    pub fn strong_count(this: &Self) -> usize {
        std::rc::Rc::strong_count(&this.0)
    }
}

impl<T> Clone for Rc<T> {
    fn clone(&self) -> Self {
        Rc(self.0.clone())
    }
}

impl<T> core::ops::Deref for Rc<T> {
    type Target = T;

    fn deref(&self) -> &T {
        &self.0
    }
}
