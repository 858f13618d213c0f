// Erased from crates/lru_trace/src/lib.rt: do not edit.
//! Miss-ratio curves: the misses of a trace in LRU caches of every size, counted in one pass.
//!
//! [`Curve`] counts the references of a trace and returns the misses for each size. [`trace`] reads a trace from lines
//! and writes a report.

#[allow(unused_imports)]
use crate::rattle_std::prelude::*;

mod best;
mod byte_curve;
mod columns;
mod curve;
mod curves;
mod delete_curve;
mod distances;
mod lines;
mod names;
mod options;
mod outcome;
mod output;
mod places;
mod progress;
mod report;
mod rows;
mod samples;
mod sizes;
mod svg;
mod traces;
mod tree;
mod warm_ups;

pub use best::Best;
pub use byte_curve::{ByteCurve, SizeError};
pub use curve::Curve;
pub use curves::AnyCurve;
pub use delete_curve::DeleteCurve;
pub use distances::Distances;
pub use lines::{Others, read_keys};
pub use options::{Column, Form, Measure, Options, Policies};
pub use outcome::{TraceEnd, TraceError, status};
pub use progress::Progress;
pub use traces::trace;
pub use warm_ups::a_warm_up_is_left_out;
