// Erased from crates/lru_replay/src/lib.rt: do not edit.
//! Runs of calls on an LRU map. The calls are a list, or lines that a reader gives.
//!
//! [`run_calls`] carries out a list of calls on any map. [`run_summing`] is for a limiter with a running total, and
//! makes no call that would make the total wrong. [`replay`] reads lines that spell [`Call`]s (`docs/REPLAY.md`), and
//! writes their answers. `docs/RUNS.md` explains the steps of these runs. [`laws`] states theorems on runs;
//! [`references`] and [`costs`] state theorems on programs that make references (`docs/THEORY.md`).

#[allow(unused_imports)]
use crate::rattle_std::prelude::*;

pub mod calls;
pub mod costs;
pub mod laws;
pub mod lines;
pub mod references;

pub use calls::summing::run_summing;
pub use calls::{Answer, Call, run_calls};
pub use lines::outcome::{ReplayEnd, ReplayError, status};
pub use lines::replays::replay;
