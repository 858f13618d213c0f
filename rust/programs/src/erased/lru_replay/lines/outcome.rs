// Erased from crates/lru_replay/src/lines/outcome.rt: do not edit.
//! How a replay ends, and the exit status of each end.

#[allow(unused_imports)]
use crate::rattle_std::prelude::*;

/// How a replay ends if it does not fail.
#[derive(Clone, Copy, Debug, PartialEq, Eq)]
pub enum ReplayEnd {
    /// All lines were carried out.
    Done,
    /// The first line names no limiter, or there is no line.
    NoLimiter,
}

/// Why a replay fails.
#[derive(Clone, Copy, Debug, PartialEq, Eq)]
pub enum ReplayError {
    /// A read failed, a line did not end within `u64::MAX` reads, or the input did not end within `u64::MAX` lines.
    Read = 1,
    /// A write or the flush failed. A write that accepts no byte counts as failed.
    Write = 2,
}

impl ::core::fmt::Display for ReplayError {
    fn fmt(&self, f: &mut ::core::fmt::Formatter<'_>) -> ::core::fmt::Result {
        match self {
            ReplayError::Read => write!(f, "read failed"),
            ReplayError::Write => write!(f, "write failed"),
        }
    }
}

/// Returns the exit status: 0 if the lines were carried out, 1 if the first line names no limiter, and 2 if a read, a
/// write or the flush failed.
pub fn status(end: &Result<ReplayEnd, ReplayError>) -> u8 {
    match end {
        Ok(ReplayEnd::Done) => 0,
        Ok(ReplayEnd::NoLimiter) => 1,
        Err(_) => 2,
    }
}
