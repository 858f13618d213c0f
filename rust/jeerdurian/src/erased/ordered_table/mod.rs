// Erased from crates/ordered_table/src/lib.rt: do not edit.
//! The table of an LRU map: a bucket table whose entries are in an order, newest first.
//!
//! [`OrderedTable`] moves an entry to either end of the order, or takes it out, in constant time. `LruMap` of
//! `schnellru` adds a limiter.

#[allow(unused_imports)]
use crate::rattle_std::prelude::*;

mod linked;
mod ordered;
mod walk;

pub use ordered::OrderedTable;
pub use walk::Walk;
pub use walk::keys::{Keys, Values};
