//! The runtime, by which a Rattle program reaches what is outside of it.

use super::alloc::Global;
use std::io::{Lines, Stderr, StdinLock};

/// The runtime. Rust's library reaches the same without it.
#[derive(Clone, Copy)]
pub struct HostRuntime;

impl HostRuntime {
    pub fn alloc(&self) -> Global {
        Global
    }

    /// The standard input.
    pub fn reader(&self) -> StdinLock<'static> {
        std::io::stdin().lock()
    }

    /// The lines of the standard input.
    pub fn lines(&self, _: Global) -> Lines<StdinLock<'static>> {
        std::io::stdin().lines()
    }

    pub fn stderr(&self) -> Stderr {
        std::io::stderr()
    }
}

/// Ends a test that fails.
pub trait Abort {
    fn abort(&self) -> !;
}

impl Abort for HostRuntime {
    #[track_caller]
    fn abort(&self) -> ! {
        panic!("a check does not hold")
    }
}
