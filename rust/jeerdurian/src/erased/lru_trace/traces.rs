// Erased from crates/lru_trace/src/traces.rt: do not edit.
//! `trace`.

#[allow(unused_imports)]
use crate::rattle_std::prelude::*;

use crate::erased::lru_trace::byte_curve::ByteCurve;
use crate::erased::lru_trace::curve::Curve;
use crate::erased::lru_trace::curves::AnyCurve;
use crate::erased::lru_trace::delete_curve::DeleteCurve;
use crate::erased::lru_trace::lines::{Ending, Others, read_keys, read_line};
use crate::erased::lru_trace::options::{Options, Policies};
use crate::erased::lru_trace::outcome::{TraceEnd, TraceError};
use crate::erased::lru_trace::output::write_bytes;
use crate::erased::lru_trace::progress::Progress;
use crate::erased::lru_trace::report::report_of;
use crate::erased::lru_trace::rows::powers;
use crate::erased::lru_trace::sizes::sizes_of;
use crate::rattle_std::alloc::{AllocError, Global};
use crate::rattle_std::io::{BufRead, Write};

struct Lines {
    sizes: Vec<usize>,
    curve: AnyCurve,
    others: Others,
}

fn add_limits(limits: &mut Vec<u64>, sizes: &[usize], bits: u32) -> Result<(), AllocError> {
    for size in sizes {
        limits.push((*size >> bits) as u64)?;
    }
    Ok(())
}

/// Returns the named sizes and all powers of two, each divided by 2 ^ bits for the sample.
fn limits_of(alloc: Global, sizes: &[usize], bits: u32) -> Result<Vec<u64>, AllocError> {
    let mut limits = Vec::new(alloc);
    add_limits(&mut limits, sizes, bits)?;
    add_limits(&mut limits, &powers(alloc, u128::MAX)?, bits)?;
    Ok(limits)
}

fn empty_curve(alloc: Global, options: Options, sizes: &[usize]) -> Result<AnyCurve, AllocError> {
    match options.policies {
        Policies::Lru { .. } => Ok(AnyCurve::Places(Curve::new(alloc)?)),
        Policies::Deletes { .. } => Ok(AnyCurve::Deletes(DeleteCurve::new(alloc)?)),
        Policies::Best => Ok(AnyCurve::Places(Curve::keeping_references(alloc)?)),
        Policies::Sized { .. } => {
            let limits = limits_of(alloc, sizes, options.bits())?;
            Ok(AnyCurve::Bytes(ByteCurve::new(alloc, limits)?))
        }
    }
}

fn read_trace<R: BufRead, P: Write>(
    alloc: Global,
    options: Options,
    reader: &mut R,
    progress: &mut Progress<P>,
) -> Result<Option<Lines>, TraceError> {
    let mut line = Vec::new(alloc);
    let ending = read_line(reader, &mut line)?;
    let Some(sizes) = sizes_of(alloc, &line)? else {
        return Ok(None);
    };
    let mut curve = empty_curve(alloc, options, &sizes)?;
    let Ending::Feed = ending else {
        let others = Others { malformed: 0, skipped: 0, deleted: 0 };
        return Ok(Some(Lines { sizes, curve, others }));
    };
    let others = read_keys(reader, &mut line, options, &mut curve, progress)?;
    Ok(Some(Lines { sizes, curve, others }))
}

/// Reads a trace, and writes how often LRU caches of each size miss. `docs/TRACE.md` describes the output.
///
/// The first line lists cache sizes. A later line spells a key if its key column, or the whole line if no column is
/// named, is text of 1 to 64 bytes. With `Policies::Sized` the line must also spell a size. Any other line counts as
/// malformed. `Policies::Best` also writes the misses of the best possible policies.
///
/// Cost: for n keys, `O(log n)` expected for each line. The memory is in proportion to the number of keys and the
/// longest line. With `Policies::Best`, the memory is also in proportion to the number of lines, and each line costs
/// `O(log n)` more for each size.
///
/// # Errors
///
/// `Read`: a read failed, or there were 2 ^ 64 - 2 lines. `Memory`: out of memory, or more than 2 ^ 32 - 1 keys.
/// `TooLarge`: the sizes of all keys sum to 2 ^ 64 or more. After `Read`, `Memory` or `TooLarge`, nothing of the report
/// was written. `Write`: a write or the flush failed; a part of the report was written.
pub fn trace<R: BufRead, W: Write, P: Write>(
    alloc: Global,
    options: Options,
    reader: &mut R,
    writer: &mut W,
    progress: &mut Progress<P>,
) -> Result<TraceEnd, TraceError> {
    let Some(read) = read_trace(alloc, options, reader, progress)? else {
        return Ok(TraceEnd::NoSizes);
    };
    let report = report_of(alloc, options, &read.curve, read.others, &read.sizes)?;
    if !write_bytes(writer, &report) {
        return Err(TraceError::Write);
    }
    match writer.flush() {
        Ok(()) => Ok(TraceEnd::Done),
        Err(_) => Err(TraceError::Write),
    }
}
