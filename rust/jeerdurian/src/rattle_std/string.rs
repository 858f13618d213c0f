//! Texts that are made with an allocator.

use super::alloc::{AllocError, Global};
use ::alloc::string::String;
use core::fmt::{Arguments, Write};

/// The calls of Rattle's `String` that Rust's `String` lacks.
pub trait MadeByAlloc: Sized {
    fn new_in(alloc: Global) -> Self;

    fn from_str(alloc: Global, text: &str) -> Result<Self, AllocError>;
}

impl MadeByAlloc for String {
    fn new_in(_: Global) -> String {
        String::new()
    }

    fn from_str(_: Global, text: &str) -> Result<String, AllocError> {
        let mut copy = String::new();
        copy.try_reserve_exact(text.len()).map_err(|_| AllocError)?;
        copy.push_str(text);
        Ok(copy)
    }
}

/// A text that grows part by part. Each growth may run out of memory.
struct Growing(String);

impl Write for Growing {
    fn write_str(&mut self, part: &str) -> core::fmt::Result {
        self.0.try_reserve(part.len()).map_err(|_| core::fmt::Error)?;
        self.0.push_str(part);
        Ok(())
    }
}

/// What `format!(in alloc; ..)` makes. A `Display` that fails counts as out of memory.
pub fn made(_: Global, text: Arguments<'_>) -> Result<String, AllocError> {
    let mut growing = Growing(String::new());
    growing.write_fmt(text).map_err(|_| AllocError)?;
    Ok(growing.0)
}
