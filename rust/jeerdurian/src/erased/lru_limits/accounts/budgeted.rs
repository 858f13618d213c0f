// Erased from crates/lru_limits/src/accounts/budgeted.rt: do not edit.
#[allow(unused_imports)]
use crate::rattle_std::prelude::*;

use crate::erased::lru_limits::accounts::Summing;

/// A limiter with a running total and a budget. A map is over the limit if and only if the total is above the budget.
pub trait Budgeted<K, V>: Summing<K, V> {
    /// Makes a limiter with a budget, and a running total of 0.
    fn with_budget(budget: u64) -> Self;

    /// Returns the budget.
    fn budget(&self) -> u64;

    /// Sets the budget. The running total stays, so a map may then be over its limit.
    fn set_budget(&mut self, budget: u64);
}
