// Erased from crates/lru_replay/src/lines/taken.rt: do not edit.
//! Writes the pairs that `drain` takes out, one at a time.

#[allow(unused_imports)]
use crate::rattle_std::prelude::*;

use crate::programs::lru_replay::lines::outcome::ReplayError;
use crate::programs::lru_replay::lines::output::{write_bytes, write_next};
use crate::rattle_std::io::Write;

pub fn write_taken<W: Write>(
    writer: &mut W,
    before: Result<(), ReplayError>,
    any: bool,
    taken: Option<(u64, u64)>,
) -> Result<(), ReplayError> {
    before?;
    write_next(writer, any, taken)
}

pub fn end_of_pairs<W: Write>(writer: &mut W, before: Result<(), ReplayError>, any: bool) -> Result<(), ReplayError> {
    before?;
    if any {
        return Ok(());
    }
    write_bytes(writer, b"-")
}
