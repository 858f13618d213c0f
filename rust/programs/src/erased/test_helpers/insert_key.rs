// Erased from crates/test_helpers/src/insert_key.rt: do not edit.
//! Texts that become a `String` only when they are stored, and a limiter that counts them. `docs/LIMITERS.md` explains
//! both.

#[allow(unused_imports)]
use crate::rattle_std::prelude::*;

use crate::erased::lru_limits::{Insertion, Limiter, LookupKey};
use crate::rattle_std::alloc::{AllocError, Global};

/// A text that names the `String` with the same bytes.
#[derive(Clone, Copy, PartialEq, Eq, Hash)]
pub struct InsertKey<'a>(pub &'a str);

impl LookupKey<String> for InsertKey<'_> {
    fn is_key(&self, key: &String) -> bool {
        self.0 == key.as_str()
    }
}

/// A limiter that limits nothing, accepts texts, and counts them.
#[derive(Clone, Copy, Default)]
pub struct Counting {
    pub inserts: u32,
    pub replacements: u32,
}

impl Limiter<String, u32> for Counting {
    type LinkType = u32;

    fn is_over_the_limit(&self, _length: usize) -> bool {
        false
    }

    fn on_removed(&mut self, _key: &mut String, _value: &mut u32) {}

    fn on_cleared(&mut self) {}

    fn on_grow(&mut self, _new_memory_usage: usize) -> bool {
        true
    }
}

impl<'a> Insertion<String, u32, InsertKey<'a>> for Counting {
    fn on_insert(
        &mut self,
        alloc: Global,
        _length: usize,
        key: InsertKey<'a>,
        value: u32,
    ) -> Result<Option<(String, u32)>, AllocError> {
        let text = String::from_str(alloc, key.0)?;
        self.inserts = self.inserts.saturating_add(1);
        Ok(Some((text, value)))
    }

    fn on_replace(
        &mut self,
        _length: usize,
        _old_key: &mut String,
        _new_key: InsertKey<'a>,
        _old_value: &mut u32,
        _new_value: &mut u32,
    ) -> bool {
        self.replacements = self.replacements.saturating_add(1);
        true
    }
}
