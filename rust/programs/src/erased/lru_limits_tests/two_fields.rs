// Erased from crates/lru_limits_tests/src/two_fields.rt: do not edit.
//! A look-up key of two fields. `docs/LIMITERS.md` explains it.

#[allow(unused_imports)]
use crate::rattle_std::prelude::*;

use crate::erased::lru_limits::LookupKey;

/// A name that belongs to a tenant.
#[derive(PartialEq, Eq, Hash)]
pub struct Name {
    pub tenant: u64,
    pub text: String,
}

/// A look-up key for a `Name`, without a `String`.
#[derive(Clone, Copy, PartialEq, Eq, Hash)]
pub struct Naming<'a> {
    pub tenant: u64,
    pub text: &'a str,
}

impl LookupKey<Name> for Naming<'_> {
    fn is_key(&self, key: &Name) -> bool {
        self.tenant == key.tenant && self.text == key.text.as_str()
    }
}
