// Erased from crates/lru_trace/src/outcome.rt: do not edit.
#[allow(unused_imports)]
use crate::rattle_std::prelude::*;

use crate::erased::lru_trace::byte_curve::SizeError;
use crate::rattle_std::alloc::AllocError;

/// How a trace ends if nothing fails.
#[derive(Clone, Copy, Debug, PartialEq, Eq)]
pub enum TraceEnd {
    /// The report was written.
    Done,
    /// The input is empty, or its first line names no sizes. Nothing was written.
    NoSizes,
}

/// Why a trace stops early.
#[derive(Clone, Copy, Debug, PartialEq, Eq)]
pub enum TraceError {
    /// A read failed.
    Read = 1,
    /// A write or the flush failed.
    Write = 2,
    /// Memory ran out, or there are more than 2 ^ 32 - 1 keys.
    Memory = 3,
    /// The sizes of all keys sum to 2 ^ 64 or more.
    TooLarge = 5,
}

impl ::core::fmt::Display for TraceError {
    fn fmt(&self, f: &mut ::core::fmt::Formatter<'_>) -> ::core::fmt::Result {
        match self {
            TraceError::Read => write!(f, "read failed"),
            TraceError::Write => write!(f, "write failed"),
            TraceError::Memory => write!(f, "out of memory"),
            TraceError::TooLarge => write!(f, "the sizes of the keys are too large"),
        }
    }
}

impl From<AllocError> for TraceError {
    fn from(_: AllocError) -> Self {
        TraceError::Memory
    }
}

impl From<SizeError> for TraceError {
    fn from(error: SizeError) -> Self {
        match error {
            SizeError::Memory => TraceError::Memory,
            SizeError::TooLarge => TraceError::TooLarge,
        }
    }
}

/// Returns the exit status: 0 if the report was written, 1 if the first line names no sizes, 2 if reading or writing
/// failed, 3 if memory ran out, and 5 after `TooLarge`.
pub fn status(end: &Result<TraceEnd, TraceError>) -> u8 {
    match end {
        Ok(TraceEnd::Done) => 0,
        Ok(TraceEnd::NoSizes) => 1,
        Err(TraceError::Read | TraceError::Write) => 2,
        Err(TraceError::Memory) => 3,
        Err(TraceError::TooLarge) => 5,
    }
}
