// Erased from crates/lru_limits/src/limiters.rt: do not edit.
//! Limiters that read no keys or values, a pair of limiters for one map, and an adapter for your own limiter.

#[allow(unused_imports)]
use crate::rattle_std::prelude::*;

use crate::erased::group_table::LinkType;
use crate::erased::lru_limits::accounts::{ByCost, Costed};
use crate::erased::lru_limits::limiter::Limiter;

mod both;
mod by_length;
mod by_memory_usage;
mod storing;
mod unlimited;
mod unlimited_compact;

pub use both::Both;
pub use by_length::ByLength;
pub use by_memory_usage::ByMemoryUsage;
pub use storing::Storing;
pub use unlimited::Unlimited;
pub use unlimited_compact::UnlimitedCompact;

/// States the width of a map's links: 32 bits under `ByLength`, `ByMemoryUsage`, `ByBytes` and `UnlimitedCompact`, and
/// 64 bits under `Unlimited`, `ByCost` and `ByWeight`. `Storing` has the links of the limiter inside, and `Both` has
/// the links of its first limiter. The contract covers neither `ByBytes` nor `ByWeight` nor `Both`.
pub fn limiters_fix_their_links<K, V, C: Costed, L: Limiter<K, V>>() {}
