// Erased from crates/lru_limits/src/accounts.rt: do not edit.
//! Costs, and limiters with a running total of costs or bytes.

#[allow(unused_imports)]
use crate::rattle_std::prelude::*;

mod budgeted;
mod by_bytes;
mod by_cost;
mod by_weight;
mod owned_bytes;

use crate::erased::lru_limits::admission::Admission;
pub use budgeted::Budgeted;
pub use by_bytes::ByBytes;
pub use by_cost::ByCost;
pub use by_weight::ByWeight;
pub use owned_bytes::OwnedBytes;

/// A value with a cost. The cost of an unsigned number of up to 64 bits is the number. The cost of a text is its number
/// of bytes, and the cost of a vector is its number of items.
///
/// The limiter reads the cost of a value again when the value is replaced, or when the entry is evicted or removed. If
/// the cost of a stored value changes, the running total is no longer the sum of the costs.
pub trait Costed {
    /// Returns the cost of the value.
    fn cost(&self) -> u64;
}

impl Costed for u8 {
    #[inline]
    fn cost(&self) -> u64 {
        *self as u64
    }
}

impl Costed for u16 {
    #[inline]
    fn cost(&self) -> u64 {
        *self as u64
    }
}

impl Costed for u32 {
    #[inline]
    fn cost(&self) -> u64 {
        *self as u64
    }
}

impl Costed for u64 {
    #[inline]
    fn cost(&self) -> u64 {
        *self
    }
}

impl Costed for usize {
    #[inline]
    fn cost(&self) -> u64 {
        *self as u64
    }
}

impl Costed for String {
    #[inline]
    fn cost(&self) -> u64 {
        self.as_bytes().len() as u64
    }
}

impl<T> Costed for Vec<T> {
    #[inline]
    fn cost(&self) -> u64 {
        self.len() as u64
    }
}

/// A limiter with a running total: it adds the cost of each accepted entry, and subtracts the cost of each evicted or
/// removed entry.
///
/// The total after each call is the sum of the costs of the map's entries, until a caller writes to a stored value, or
/// changes the limiter.
pub trait Summing<K, V>: Admission<K, V> {
    /// Returns the cost of an entry.
    fn cost_of(key: &K, value: &V) -> u64;

    /// Returns the running total.
    fn account(&self) -> u64;
}

#[inline]
fn sum_with(limit: u64, sum: u64, cost: u64) -> Option<u64> {
    if cost <= limit { sum.checked_add(cost) } else { None }
}
