// Erased from crates/lru_limits_tests/src/body.rt: do not edit.
//! A value whose type says how many bytes it owns: an example of docs/LIMITERS.md.

#[allow(unused_imports)]
use crate::rattle_std::prelude::*;

use crate::erased::lru_limits::OwnedBytes;

pub struct Body {
    pub name: String,
    pub bytes: Vec<u8>,
}

impl OwnedBytes for Body {
    fn owned_bytes(&self) -> u64 {
        self.name.owned_bytes().saturating_add(self.bytes.owned_bytes())
    }
}
