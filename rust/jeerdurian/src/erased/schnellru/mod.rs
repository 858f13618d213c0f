// Erased from crates/schnellru/src/lib.rt: do not edit.
//! A hash map that remembers the order in which its entries were used, and evicts the oldest entries when a limiter
//! says so.
//!
//! [`LruMap`] is the map, and [`ByLength`] is one of its limiters. `docs/LIMITERS.md` shows how to write a limiter and
//! a look-up key. `docs/CALLING.md` shows how to prove code that calls the map. `docs/DIFFERENCES.md` lists the
//! differences from the Rust crate `schnellru`. The contracts of [`laws`] are theorems about calls.

#[allow(unused_imports)]
use crate::rattle_std::prelude::*;

mod map;
mod walk;

pub use crate::erased::lru_limits::{
    Admission, Both, Budgeted, ByBytes, ByCost, ByLength, ByMemoryUsage, ByWeight, Costed, DefaultHasher, Insertion,
    KeyHasher, Limiter, LinkType, LookupKey, OwnedBytes, RandomState, Storing, Summing, Unlimited, UnlimitedCompact,
};
pub use crate::erased::lru_model::{GetOrInsertError, Inserted, MoveReport, ReserveError, Updated, laws};
pub use crate::erased::ordered_table::{Keys, Values, Walk};
pub use map::LruMap;
pub use map::entry::OccupiedEntry;
pub use walk::Iter;
pub use walk::drain::Drain;
pub use walk::into_iter::IntoIter;
pub use walk::iter_mut::IterMut;
