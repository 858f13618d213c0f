// Erased from crates/lru_tenants/src/error.rt: do not edit.
#[allow(unused_imports)]
use crate::rattle_std::prelude::*;

/// Why a call on a tenant failed. After an error other than `Memory`, nothing has changed.
#[derive(Clone, Copy, Debug, PartialEq, Eq)]
pub enum TenantError {
    /// A tenant with this name is open.
    AlreadyOpen = 1,
    /// No tenant with this name is open.
    NotOpen = 2,
    /// Memory ran out, or no larger table is possible. Some of the tenant's oldest entries may have been evicted.
    Memory = 3,
    /// The sum of all budgets, or of all shares, would be above the limit.
    OverTotal = 4,
}

impl ::core::fmt::Display for TenantError {
    fn fmt(&self, f: &mut ::core::fmt::Formatter<'_>) -> ::core::fmt::Result {
        match self {
            TenantError::AlreadyOpen => write!(f, "already open"),
            TenantError::NotOpen => write!(f, "not open"),
            TenantError::Memory => write!(f, "out of memory"),
            TenantError::OverTotal => write!(f, "over the total limit"),
        }
    }
}
