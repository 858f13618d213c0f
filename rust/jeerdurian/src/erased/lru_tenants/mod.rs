// Erased from crates/lru_tenants/src/lib.rt: do not edit.
//! Caches for many tenants.
//!
//! In a [`TenantCache`] each tenant has its own budget. In a [`TenantPool`] all tenants share one limit. A
//! [`ByteTenants`] limits the bytes of everything.
//! `docs/TENANTS.md` says how to use them, and what is proved.

#[allow(unused_imports)]
use crate::rattle_std::prelude::*;

mod bytes;
mod cache;
mod call;
mod counting;
mod error;
mod laws;
mod pool;
mod runs;
mod tenant;

pub use crate::erased::lru_caches::Counts;
pub use crate::erased::lru_limits::{Budgeted, ByCost, ByWeight, Costed};
pub use crate::erased::schnellru::Inserted;
pub use crate::erased::schnellru::laws::calls_keep_the_budget;
pub use bytes::ByteTenants;
pub use cache::TenantCache;
pub use call::{TenantAnswer, TenantCall};
pub use counting::Counting;
pub use error::TenantError;
pub use laws::{calls_spare_other_tenants, costs_are_within_the_total_limit, each_tenant_has_its_own_run};
pub use pool::TenantPool;
pub use runs::run_tenants;
