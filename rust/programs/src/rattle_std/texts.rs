//! Calls of texts that make a vector or take an allocator.

use super::alloc::{AllocError, Global};
use super::vec::Vec;

/// Calls of `String`.
pub trait Texts {
    fn into_vec(self) -> Vec<u8>;
}

impl Texts for String {
    fn into_vec(self) -> Vec<u8> {
        Vec::from_std(self.into_bytes())
    }
}

/// `replace` of a text.
pub trait ReplaceIn {
    /// Without memory the program ends, where Rattle's `replace` returns an error.
    fn replace_in(&self, alloc: Global, from: &str, to: &str) -> Result<String, AllocError>;
}

impl ReplaceIn for str {
    fn replace_in(&self, _: Global, from: &str, to: &str) -> Result<String, AllocError> {
        Ok(self.replace(from, to))
    }
}
