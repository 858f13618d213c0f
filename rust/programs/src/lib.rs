//! The programs of the workspace and its proved tests, erased as `jeerdurian` is.
//!
//! The erased modules of `jeerdurian` are private, so this crate compiles them again.
#![cfg(feature = "std")]

extern crate alloc;

#[path = "../../jeerdurian/src/rattle_std/mod.rs"]
mod library;
#[cfg(test)]
mod memory;
mod rattle_std;
#[cfg(test)]
mod spread;
#[cfg(test)]
mod unseen;
#[cfg(test)]
mod worked;
#[macro_use]
#[path = "rattle_std/macros.rs"]
mod macros;

#[path = "../../jeerdurian/src/erased/mod.rs"]
mod erased;
#[path = "erased/mod.rs"]
mod programs;

use rattle_std::runtime::HostRuntime;
use std::process::Termination;

/// Replays lines of calls on a map.
pub fn replay() -> impl Termination {
    programs::replay::main(HostRuntime)
}

/// Prints how often LRU caches of each size miss on a trace.
pub fn trace() -> impl Termination {
    programs::trace::main(HostRuntime)
}

/// Reads and writes the blocks of a file through a page cache.
pub fn example_pages() -> impl Termination {
    programs::example_pages::main(HostRuntime)
}

/// Keeps responses of many hosts in a cache.
pub fn example_responses() -> impl Termination {
    programs::example_responses::main(HostRuntime)
}

/// Checks the rows of data files, and random calls.
pub fn rows() -> impl Termination {
    programs::rows::main(HostRuntime)
}
