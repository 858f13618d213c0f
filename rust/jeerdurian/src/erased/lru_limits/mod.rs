// Erased from crates/lru_limits/src/lib.rt: do not edit.
//! The parts of a map with a limiter: look-up keys, limiters, running totals and a hasher.
//!
//! `docs/LIMITERS.md` shows how to write a limiter and a look-up key of your own.

#[allow(unused_imports)]
use crate::rattle_std::prelude::*;

mod accounts;
mod admission;
mod hasher;
mod keys;
mod limiter;
mod limiters;

pub use crate::erased::group_table::LinkType;
pub use accounts::{Budgeted, ByBytes, ByCost, ByWeight, Costed, OwnedBytes, Summing};
pub use admission::Admission;
pub use hasher::{DefaultHasher, RandomState};
pub use keys::{KeyHasher, LookupKey};
pub use limiter::{Insertion, Limiter};
pub use limiters::{Both, ByLength, ByMemoryUsage, Storing, Unlimited, UnlimitedCompact, limiters_fix_their_links};
