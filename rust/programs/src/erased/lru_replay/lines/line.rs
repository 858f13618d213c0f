// Erased from crates/lru_replay/src/lines/line.rt: do not edit.
//! Reads lines, one at a time, into a fixed array.

#[allow(unused_imports)]
use crate::rattle_std::prelude::*;

use crate::programs::lru_replay::lines::bytes::index_of;
use crate::programs::lru_replay::lines::outcome::ReplayError;
use crate::rattle_std::io::{BufRead, ErrorKind};

/// The length in bytes of the longest line with a meaning: `insert` with two numbers of 20 digits.
const LONGEST: usize = 48;

/// The greatest number of bytes that a `Line` stores: one more than `LONGEST`, so that a longer line is noticed.
pub const HELD: usize = LONGEST + 1;

pub struct Line {
    bytes: [u8; HELD],
    len: usize,
}

impl Line {
    pub fn new() -> Line {
        Line { bytes: [0; HELD], len: 0 }
    }

    pub fn as_slice(&self) -> &[u8] {
        &(*at!(self.bytes, ..self.len))
    }

    fn clear(&mut self) {
        self.len = 0;
    }

    fn is_empty(&self) -> bool {
        self.len == 0
    }

    fn len(&self) -> usize {
        self.len
    }

    fn push(&mut self, byte: u8) {
        (*at_mut!(self.bytes, self.len)) = byte;
        self.len += 1;
    }

    fn extend(&mut self, piece: &[u8]) {
        for byte in piece {
            if self.len() == HELD {
                break;
            }
            self.push(*byte);
        }
    }
}

/// The result of one read of the reader's buffer.
#[derive(Clone, Copy)]
pub enum Piece {
    Part,
    Last,
    End,
}

/// Takes the part of the line that the reader's buffer contains. An interrupted read gives no byte.
fn take_piece<R: BufRead>(reader: &mut R, line: &mut Line) -> Result<Piece, ReplayError> {
    let available = match reader.fill_buf() {
        Ok(available) => available,
        Err(e) => {
            return if e.kind() == ErrorKind::Interrupted { Ok(Piece::Part) } else { Err(ReplayError::Read) };
        }
    };
    let len = available.len();
    let at = index_of(available, b'\n');
    line.extend(&(*at!(available, ..at)));
    if len == 0 {
        reader.consume(0);
        return Ok(Piece::End);
    }
    if at == len {
        reader.consume(at);
        return Ok(Piece::Part);
    }
    reader.consume(at + 1);
    Ok(Piece::Last)
}

#[derive(Clone, Copy)]
pub enum Ending {
    Feed,
    InputEnd,
    Nothing,
}

/// Reads the next line to its end, and stores its first `HELD` bytes. Repeats an interrupted read of the buffer.
///
/// # Errors
///
/// `ReplayError::Read`: a read failed, or the line did not end within `u64::MAX` reads.
pub fn read_line<R: BufRead>(reader: &mut R, line: &mut Line) -> Result<Ending, ReplayError> {
    line.clear();
    for _ in 0..u64::MAX {
        match take_piece(reader, line) {
            Ok(Piece::Part) => {}
            Ok(Piece::Last) => return Ok(Ending::Feed),
            Ok(Piece::End) => {
                return if line.is_empty() { Ok(Ending::Nothing) } else { Ok(Ending::InputEnd) };
            }
            Err(_) => return Err(ReplayError::Read),
        }
    }
    Err(ReplayError::Read)
}
