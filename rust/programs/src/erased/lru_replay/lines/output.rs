// Erased from crates/lru_replay/src/lines/output.rt: do not edit.
//! The texts of replies, written piece by piece.

#[allow(unused_imports)]
use crate::rattle_std::prelude::*;

use crate::erased::lru_model::{ReserveError, Updated};
use crate::programs::lru_replay::calls::Answer;
use crate::programs::lru_replay::lines::figures::Figures;
use crate::programs::lru_replay::lines::outcome::ReplayError;
use crate::rattle_std::alloc::AllocError;
use crate::rattle_std::io::{ErrorKind, Write};

pub fn write_bytes<W: Write>(writer: &mut W, bytes: &[u8]) -> Result<(), ReplayError> {
    let mut rest = bytes;
    for _ in 0..u64::MAX {
        if rest.is_empty() {
            return Ok(());
        }
        match writer.write(rest) {
            Ok(0) => return Err(ReplayError::Write),
            Ok(n) => rest = &(*at!(rest, n..)),
            Err(e) => {
                if e.kind() != ErrorKind::Interrupted {
                    return Err(ReplayError::Write);
                }
            }
        }
    }
    Err(ReplayError::Write)
}

pub fn write_answer<W: Write>(writer: &mut W, answer: Answer<u64, u64>, cost: Option<u64>) -> Result<(), ReplayError> {
    match answer {
        Answer::Flag(flag) => write_flag(writer, flag),
        Answer::Given { done, out } => write_given(writer, done, out.as_slice()),
        Answer::Updated(updated) => write_updated(writer, updated),
        Answer::Value(value) => write_value(writer, value),
        Answer::Pair(pair) => write_left(writer, pair),
        Answer::Pairs(pairs) => write_listed(writer, pairs.as_slice()),
        Answer::Done => write_bytes(writer, b"ok"),
        Answer::Reserved(reserved) => write_reservation(writer, reserved),
        Answer::Shrunk(shrunk) => write_shrink(writer, shrunk),
        Answer::Stats { len, capacity, memory, report } => {
            let figures =
                Figures { len, capacity, memory, moved: report.moved, placed: report.placed, shrunk: report.shrunk };
            write_figures(writer, figures)?;
            write_cost(writer, cost)
        }
        Answer::Memory => write_bytes(writer, b"no memory"),
        Answer::CostDiffers => write_bytes(writer, b"cost differs"),
    }
}

fn write_flag<W: Write>(writer: &mut W, flag: bool) -> Result<(), ReplayError> {
    if flag { write_bytes(writer, b"true") } else { write_bytes(writer, b"false") }
}

fn write_given<W: Write>(
    writer: &mut W,
    done: Result<bool, AllocError>,
    out: &[(u64, u64)],
) -> Result<(), ReplayError> {
    write_insert(writer, done)?;
    write_passed(writer, out)
}

fn write_insert<W: Write>(writer: &mut W, done: Result<bool, AllocError>) -> Result<(), ReplayError> {
    match done {
        Ok(there) => write_flag(writer, there),
        Err(_) => write_bytes(writer, b"no memory"),
    }
}

fn write_passed<W: Write>(writer: &mut W, pairs: &[(u64, u64)]) -> Result<(), ReplayError> {
    for pair in pairs {
        write_bytes(writer, b" ")?;
        write_pair(writer, pair.0, pair.1)?;
    }
    Ok(())
}

fn write_listed<W: Write>(writer: &mut W, pairs: &[(u64, u64)]) -> Result<(), ReplayError> {
    let Some((first, rest)) = pairs.split_first() else {
        return write_bytes(writer, b"-");
    };
    write_pair(writer, first.0, first.1)?;
    write_passed(writer, rest)
}

fn write_value<W: Write>(writer: &mut W, value: Option<u64>) -> Result<(), ReplayError> {
    match value {
        Some(value) => write_number(writer, value),
        None => write_bytes(writer, b"none"),
    }
}

fn write_left<W: Write>(writer: &mut W, left: Option<(u64, u64)>) -> Result<(), ReplayError> {
    match left {
        Some((key, value)) => write_pair(writer, key, value),
        None => write_bytes(writer, b"none"),
    }
}

fn write_reservation<W: Write>(writer: &mut W, reserved: Result<(), ReserveError>) -> Result<(), ReplayError> {
    match reserved {
        Ok(()) => write_bytes(writer, b"ok"),
        Err(ReserveError::TooLarge) => write_bytes(writer, b"too large"),
        Err(ReserveError::Refused) => write_bytes(writer, b"refused"),
        Err(ReserveError::Memory) => write_bytes(writer, b"no memory"),
    }
}

fn write_shrink<W: Write>(writer: &mut W, shrunk: Result<bool, AllocError>) -> Result<(), ReplayError> {
    match shrunk {
        Ok(true) => write_bytes(writer, b"ok"),
        Ok(false) => write_bytes(writer, b"kept"),
        Err(_) => write_bytes(writer, b"no memory"),
    }
}

fn write_updated<W: Write>(writer: &mut W, updated: Updated<u64>) -> Result<(), ReplayError> {
    match updated {
        Updated::Replaced(old) => write_named(writer, b"replaced ", old),
        Updated::Rejected(new) => write_named(writer, b"rejected ", new),
        Updated::Absent(new) => write_named(writer, b"absent ", new),
    }
}

fn write_figures<W: Write>(writer: &mut W, figures: Figures) -> Result<(), ReplayError> {
    write_named(writer, b"len ", figures.len as u64)?;
    write_named(writer, b" capacity ", figures.capacity as u64)?;
    write_named(writer, b" memory ", figures.memory as u64)?;
    write_named(writer, b" moved ", figures.moved)?;
    write_placed(writer, figures.placed, figures.shrunk)
}

fn write_placed<W: Write>(writer: &mut W, placed: u64, shrunk: u64) -> Result<(), ReplayError> {
    write_named(writer, b" placed ", placed)?;
    if shrunk == 0 { write_bytes(writer, b"") } else { write_named(writer, b" shrunk ", shrunk) }
}

fn write_cost<W: Write>(writer: &mut W, cost: Option<u64>) -> Result<(), ReplayError> {
    match cost {
        Some(cost) => write_named(writer, b" cost ", cost),
        None => write_bytes(writer, b""),
    }
}

fn write_named<W: Write>(writer: &mut W, name: &[u8], number: u64) -> Result<(), ReplayError> {
    write_bytes(writer, name)?;
    write_number(writer, number)
}

pub fn write_next<W: Write>(writer: &mut W, any: bool, next: Option<(u64, u64)>) -> Result<(), ReplayError> {
    let Some((key, value)) = next else {
        return write_bytes(writer, b"");
    };
    if !any {
        return write_pair(writer, key, value);
    }
    write_bytes(writer, b" ")?;
    write_pair(writer, key, value)
}

pub fn write_pair<W: Write>(writer: &mut W, key: u64, value: u64) -> Result<(), ReplayError> {
    write_number(writer, key)?;
    write_bytes(writer, b":")?;
    write_number(writer, value)
}

fn write_number<W: Write>(writer: &mut W, number: u64) -> Result<(), ReplayError> {
    let mut digits = [0u8; 20];
    let mut at = 20;
    let mut rest = number;
    while rest >= 10 {
        at -= 1;
        (*at_mut!(digits, at)) = b'0' + (rest % 10) as u8;
        rest /= 10;
    }
    at -= 1;
    (*at_mut!(digits, at)) = b'0' + rest as u8;
    write_bytes(writer, &(*at!(digits, at..)))
}
