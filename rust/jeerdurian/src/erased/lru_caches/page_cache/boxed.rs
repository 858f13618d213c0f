// Erased from crates/lru_caches/src/page_cache/boxed.rt: do not edit.
#[allow(unused_imports)]
use crate::rattle_std::prelude::*;

use crate::rattle_std::alloc::{AllocError, Global};
use crate::rattle_std::boxed::Box;

/// A block in a box of its own, so that a bucket of the table contains only a pointer. Contracts see the block.

pub(super) struct Boxed<B> {
    inner: Box<B>,
}

impl<B: Copy> Boxed<B> {
    fn new(alloc: Global, block: &B) -> Result<Self, AllocError> {
        Ok(Boxed { inner: Box::new(alloc, *block)? })
    }

    pub(super) fn get(&self) -> &B {
        &self.inner
    }

    pub(super) fn set(&mut self, block: &B) {
        *self.inner = *block;
    }

    pub(super) fn write<R, U: FnOnce(&mut B) -> R>(&mut self, write: U) -> R {
        write(&mut self.inner)
    }
}

/// Stores a block in a spare box, or in a new box.
pub(super) fn store<B: Copy>(alloc: Global, spare: Option<Boxed<B>>, block: &B) -> Result<Boxed<B>, AllocError> {
    match spare {
        Some(mut boxed) => {
            boxed.set(block);
            Ok(boxed)
        }
        None => Boxed::new(alloc, block),
    }
}
