// Erased from crates/rows/src/results.rt: do not edit.
#[allow(unused_imports)]
use crate::rattle_std::prelude::*;

use crate::erased::lru_model::{MoveReport, ReserveError, Updated};
use crate::programs::rows::text::Text;

pub(crate) fn write_updated(out: &mut Text, updated: Updated<u64>) {
    match updated {
        Updated::Replaced(value) => out.figure("replaced ", value),
        Updated::Rejected(value) => out.figure("rejected ", value),
        Updated::Absent(value) => out.figure("absent ", value),
    }
}

pub(crate) fn write_reserved(out: &mut Text, reserved: Result<(), ReserveError>) {
    out.word(match reserved {
        Ok(()) => "ok",
        Err(ReserveError::TooLarge) => "too large",
        Err(ReserveError::Refused) => "refused",
        Err(ReserveError::Memory) => "no memory",
    });
}

pub(crate) fn write_figures(out: &mut Text, [len, capacity, memory]: [u64; 3], report: MoveReport) {
    out.figure("len ", len);
    out.figure(" capacity ", capacity);
    out.figure(" memory ", memory);
    out.figure(" moved ", report.moved);
    out.figure(" placed ", report.placed);
    if report.shrunk > 0 {
        out.figure(" shrunk ", report.shrunk);
    }
}
