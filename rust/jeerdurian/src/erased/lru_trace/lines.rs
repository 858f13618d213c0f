// Erased from crates/lru_trace/src/lines.rt: do not edit.
//! The lines of a trace, and their keys.

#[allow(unused_imports)]
use crate::rattle_std::prelude::*;

use crate::erased::lru_trace::byte_curve::SizeError;
use crate::erased::lru_trace::columns::{cell, text_in};
use crate::erased::lru_trace::curves::AnyCurve;
use crate::erased::lru_trace::options::{Options, Policies};
use crate::erased::lru_trace::outcome::TraceError;
use crate::erased::lru_trace::progress::Progress;
use crate::erased::lru_trace::samples::is_sampled;
use crate::erased::lru_trace::sizes::number_of;
use crate::rattle_std::io::{BufRead, ErrorKind, Write};

/// The greatest length of a key, in bytes.
const LONGEST_KEY: usize = 64;

#[derive(Clone, Copy)]
pub enum Ending {
    Feed,
    InputEnd,
    Nothing,
}

#[derive(Clone, Copy, Debug, PartialEq, Eq)]
pub struct Others {
    /// The number of lines that spell no key or, with `Policies::Sized`, no size.
    pub malformed: u64,
    /// The number of references to keys outside the sample, after the warm-up.
    pub skipped: u64,
    /// How many lines delete a key.
    pub deleted: u64,
}

impl Others {
    fn add(&mut self, more: Others) {
        self.malformed += more.malformed;
        self.skipped += more.skipped;
        self.deleted += more.deleted;
    }
}

fn take_feed(line: &mut Vec<u8>) -> Ending {
    let len = line.len();
    if len == 0 {
        return Ending::Nothing;
    }
    if (*at!(line, len - 1)) != b'\n' {
        return Ending::InputEnd;
    }
    line.truncate(len - 1);
    Ending::Feed
}

pub fn read_line<R: BufRead>(reader: &mut R, line: &mut Vec<u8>) -> Result<Ending, TraceError> {
    line.clear();
    match reader.read_until(b'\n', line) {
        Ok(_) => Ok(take_feed(line)),
        Err(e) if e.kind() == ErrorKind::OutOfMemory => Err(TraceError::Memory),
        Err(_) => Err(TraceError::Read),
    }
}

fn key_of(line: &[u8]) -> Option<&str> {
    if line.is_empty() || line.len() > LONGEST_KEY {
        return None;
    }
    match str::from_utf8(line) {
        Ok(key) => Some(key),
        Err(_) => None,
    }
}

fn deletes(line: &[u8], policies: Policies) -> bool {
    match policies {
        Policies::Deletes { .. } => line.starts_with(b"- "),
        Policies::Lru { .. } | Policies::Best | Policies::Sized { .. } => false,
    }
}

fn body(line: &[u8], policies: Policies) -> &[u8] {
    if deletes(line, policies) {
        return &(*at!(line, 2..));
    }
    line
}

fn size_of(line: &[u8], policies: Policies) -> Option<u64> {
    match policies {
        Policies::Lru { .. } | Policies::Best => Some(1),
        Policies::Deletes { .. } => Some(u64::from(!deletes(line, policies))),
        Policies::Sized { size, .. } => Some(number_of(cell(line, size))? as u64),
    }
}

fn reference_of<'a>(line: &'a [u8], options: Options) -> Option<(&'a str, u64)> {
    let key = key_of(text_in(body(line, options.policies), options.column))?;
    let size = size_of(line, options.policies)?;
    Some((key, size))
}

fn refer_line(curve: &mut AnyCurve, options: Options, warm: bool, line: &[u8]) -> Result<Others, SizeError> {
    let Some((key, size)) = reference_of(line, options) else {
        return Ok(Others { malformed: 1, skipped: 0, deleted: 0 });
    };
    let deleted = u64::from(deletes(line, options.policies));
    if !is_sampled(key.as_bytes(), options.bits()) {
        return Ok(Others { malformed: 0, skipped: u64::from(!warm && deleted == 0), deleted });
    }
    curve.refer(warm, key, size)?;
    Ok(Others { malformed: 0, skipped: 0, deleted })
}

/// References the key of each remaining line (see `docs/TRACE.md`) if the key is in the sample. Returns the numbers of
/// malformed lines, of skipped lines, and of lines that delete a key. After each million lines, writes the number of
/// lines to `progress`.
///
/// # Errors
///
/// `Read`, `Memory` or `TooLarge`, as for `trace`.
pub fn read_keys<R: BufRead, P: Write>(
    reader: &mut R,
    line: &mut Vec<u8>,
    options: Options,
    curve: &mut AnyCurve,
    progress: &mut Progress<P>,
) -> Result<Others, TraceError> {
    let warm_up = options.policies.warm_up();
    let mut others = Others { malformed: 0, skipped: 0, deleted: 0 };
    for lines in 0..u64::MAX - 1 {
        progress.note(lines);
        let warm = lines - others.malformed - others.deleted < warm_up;
        let ending = read_line(reader, line)?;
        if let Ending::Nothing = ending {
            return Ok(others);
        }
        others.add(refer_line(curve, options, warm, line)?);
        if let Ending::InputEnd = ending {
            return Ok(others);
        }
    }
    Err(TraceError::Read)
}
