// Erased from crates/lru_replay/src/lines.rt: do not edit.
//! What the lines of a replay mean, and the texts of its answers.

#[allow(unused_imports)]
use crate::rattle_std::prelude::*;

mod bytes;
mod drain;
pub mod figures;
pub mod line;
pub mod outcome;
pub mod output;
mod pairs;
pub(crate) mod replays;
pub mod taken;
pub mod words;
