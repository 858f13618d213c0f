// Erased from crates/lru_replay/src/lines/figures.rt: do not edit.
//! What `stats` reports about a map.

#[allow(unused_imports)]
use crate::rattle_std::prelude::*;

use crate::erased::lru_limits::{ByCost, ByLength, ByMemoryUsage, UnlimitedCompact};

/// A limiter of a replay.
pub trait ReportsCost {
    /// Returns the running total of costs, if there is one.
    fn reported_cost(&self) -> Option<u64>;
}

impl ReportsCost for ByLength {
    fn reported_cost(&self) -> Option<u64> {
        None
    }
}

impl ReportsCost for ByMemoryUsage {
    fn reported_cost(&self) -> Option<u64> {
        None
    }
}

impl ReportsCost for UnlimitedCompact {
    fn reported_cost(&self) -> Option<u64> {
        None
    }
}

impl ReportsCost for ByCost {
    fn reported_cost(&self) -> Option<u64> {
        Some(self.cost())
    }
}

#[derive(Clone, Copy)]
pub struct Figures {
    pub len: usize,
    pub capacity: usize,
    pub memory: usize,
    pub moved: u64,
    pub placed: u64,
    pub shrunk: u64,
}
