// Erased from crates/group_table/src/lib.rt: do not edit.
//! The bucket table of the LRU map, and the integer types of links to its buckets.

#[allow(unused_imports)]
use crate::rattle_std::prelude::*;

mod cells;
mod control;
mod entries;
mod fields;
mod full_buckets;
pub mod group;
mod link;
mod neighbours;
mod probe;
mod sizes;
mod table;

pub use link::LinkType;
pub use sizes::{buckets_for_capacity, full_capacity};
pub use table::Table;
