// Erased from crates/lru_replay/src/lines/replays.rt: do not edit.
//! Replays, which read lines and write answer lines.

#[allow(unused_imports)]
use crate::rattle_std::prelude::*;

use crate::erased::schnellru::{ByCost, ByLength, ByMemoryUsage, Insertion, LruMap, RandomState, UnlimitedCompact};
use crate::programs::lru_replay::calls::make_call;
use crate::programs::lru_replay::lines::drain::write_drain;
use crate::programs::lru_replay::lines::figures::ReportsCost;
use crate::programs::lru_replay::lines::line::{Ending, Line, read_line};
use crate::programs::lru_replay::lines::output::{write_answer, write_bytes};
use crate::programs::lru_replay::lines::pairs::write_pairs;
use crate::programs::lru_replay::lines::words::{Limit, call_of, limit_of};
use crate::programs::lru_replay::{Call, ReplayEnd, ReplayError};
use crate::rattle_std::alloc::Global;
use crate::rattle_std::io::{BufRead, Write};

const ENTRY_BYTES: usize = 32;

fn answer_call<L: Insertion<u64, u64, u64> + ReportsCost, W: Write>(
    alloc: Global,
    map: &mut LruMap<u64, u64, L>,
    line: &[u8],
    writer: &mut W,
) -> Result<(), ReplayError> {
    let Some(call) = call_of(line) else {
        return write_bytes(writer, b"bad");
    };
    if let Call::List = call {
        return write_pairs(writer, map.iter());
    }
    if let Call::Drain { front, back: _ } = call {
        return write_drain(writer, map, front);
    }
    let cost = map.limiter().reported_cost();
    let answer = make_call(alloc, map, call);
    write_answer(writer, answer, cost)
}

fn answer_line<L: Insertion<u64, u64, u64> + ReportsCost, W: Write>(
    alloc: Global,
    map: &mut LruMap<u64, u64, L>,
    line: &[u8],
    writer: &mut W,
) -> Result<(), ReplayError> {
    let carried_out = answer_call(alloc, map, line, writer);
    learn(map);
    carried_out?;
    write_bytes(writer, b"\n")
}

fn learn<L: Insertion<u64, u64, u64>>(map: &LruMap<u64, u64, L>) {
    let _len = map.len();
}

fn answer_lines<L: Insertion<u64, u64, u64> + ReportsCost, R: BufRead, W: Write>(
    alloc: Global,
    map: &mut LruMap<u64, u64, L>,
    reader: &mut R,
    writer: &mut W,
) -> Result<(), ReplayError> {
    let mut line = Line::new();
    for _ in 0..u64::MAX {
        match read_line(reader, &mut line)? {
            Ending::Feed => answer_line(alloc, map, line.as_slice(), writer)?,
            Ending::InputEnd => return answer_line(alloc, map, line.as_slice(), writer),
            Ending::Nothing => return Ok(()),
        }
    }
    Err(ReplayError::Read)
}

fn answer_with<L: Insertion<u64, u64, u64> + ReportsCost, R: BufRead, W: Write>(
    alloc: Global,
    limiter: L,
    entry_bytes: usize,
    reader: &mut R,
    writer: &mut W,
) -> Result<(), ReplayError> {
    let mut map = LruMap::with_hasher(alloc, limiter, RandomState::default(), entry_bytes);
    answer_lines(alloc, &mut map, reader, writer)
}

fn answer_under<R: BufRead, W: Write>(
    alloc: Global,
    limit: Limit,
    reader: &mut R,
    writer: &mut W,
) -> Result<(), ReplayError> {
    match limit {
        Limit::Length(most) => answer_with(alloc, ByLength::new(most), ENTRY_BYTES, reader, writer),
        Limit::Memory(budget, entry_bytes) => {
            let limiter = ByMemoryUsage::new(budget);
            answer_with(alloc, limiter, entry_bytes, reader, writer)
        }
        Limit::Cost(most) => answer_with(alloc, ByCost::new(most), ENTRY_BYTES, reader, writer),
        Limit::Compact => answer_with(alloc, UnlimitedCompact, ENTRY_BYTES, reader, writer),
    }
}

fn answer_all<R: BufRead, W: Write>(alloc: Global, reader: &mut R, writer: &mut W) -> Result<ReplayEnd, ReplayError> {
    let mut line = Line::new();
    let ending = read_line(reader, &mut line)?;
    let Some(limit) = limit_of(line.as_slice()) else {
        write_bytes(writer, b"no limiter\n")?;
        return Ok(ReplayEnd::NoLimiter);
    };
    let Ending::Feed = ending else {
        return Ok(ReplayEnd::Done);
    };
    answer_under(alloc, limit, reader, writer)?;
    Ok(ReplayEnd::Done)
}

/// Carries out the lines of the reader on an LRU map, and writes the answer lines. The first line names the limiter and
/// has no answer; docs/REPLAY.md lists the lines and their answers. If no write fails, the output is flushed once, at
/// the end.
///
/// The contract is about the whole streams of bytes. It does not depend on how reads and writes divide these streams.
/// If the type of a reader or a writer says nothing about its bytes, the contract says nothing about these bytes.
///
/// Cost: the cost of the calls. A line of any length is read in constant memory. `put` requests memory for the entries
/// that it writes.
///
/// # Errors
///
/// `Read`: a read failed. The lines that were read whole are answered, and the output is flushed. `Write`: a write or
/// the flush failed. After a failed write, no more lines are read and nothing more is written.
pub fn replay<R: BufRead, W: Write>(alloc: Global, reader: &mut R, writer: &mut W) -> Result<ReplayEnd, ReplayError> {
    let end = answer_all(alloc, reader, writer);
    if let Err(ReplayError::Write) = end {
        return end;
    }
    match writer.flush() {
        Ok(()) => end,
        Err(_) => Err(ReplayError::Write),
    }
}
