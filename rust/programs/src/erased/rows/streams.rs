// Erased from crates/rows/src/streams.rt: do not edit.
//! Readers and writers in memory that give or take few bytes in each call, and fail at given calls.
#[allow(unused_imports)]
use crate::rattle_std::prelude::*;

use crate::rattle_std::alloc::Global;
use crate::rattle_std::io::{self, Error, ErrorKind, Read, Write};

/// Gives at most `most` bytes in each read, and fails at read number `fails_at`, counted from 0.

pub struct Slow<'a> {
    bytes: &'a [u8],
    most: usize,
    reads: usize,
    fails_at: usize,
    kind: ErrorKind,
}

impl<'a> Slow<'a> {
    pub fn new(bytes: &'a [u8], most: usize) -> Slow<'a> {
        Slow { bytes, most, reads: 0, fails_at: usize::MAX, kind: ErrorKind::Other }
    }

    pub fn failing(self, fails_at: usize, kind: ErrorKind) -> Slow<'a> {
        Slow { fails_at, kind, ..self }
    }
}

impl<'a> Read for Slow<'a> {
    fn read(&mut self, buf: &mut [u8]) -> io::Result<usize> {
        let read = self.reads;
        self.reads = read.saturating_add(1);
        if read == self.fails_at {
            return Err(Error::from(self.kind));
        }
        let n = self.most.min(self.bytes.len()).min(buf.len());
        let (now, later) = self.bytes.split_at(n);
        (*at_mut!(buf, ..n)).copy_from_slice(now);
        self.bytes = later;
        Ok(n)
    }
}

#[derive(Clone, Copy)]
pub enum Failure {
    Error(ErrorKind),
    NoBytes,
}

/// Takes at most `most` bytes in each write. The first `fails_at` writes succeed, and then `times` writes fail. Counts
/// its flushes.

pub struct Narrow {
    bytes: Vec<u8>,
    flushes: usize,
    pub flush_fails: Option<ErrorKind>,
    most: usize,
    writes: usize,
    fails_at: usize,
    times: usize,
    failure: Failure,
}

impl Narrow {
    pub const fn new(alloc: Global, most: usize) -> Narrow {
        Narrow {
            bytes: Vec::new(alloc),
            flushes: 0,
            flush_fails: None,
            most,
            writes: 0,
            fails_at: usize::MAX,
            times: 0,
            failure: Failure::NoBytes,
        }
    }

    pub fn has(&self, text: &[u8], flushes: usize) -> bool {
        self.bytes.as_slice() == text && self.flushes == flushes
    }

    pub fn failing(self, fails_at: usize, times: usize, failure: Failure) -> Narrow {
        Narrow { fails_at, times, failure, ..self }
    }
}

impl Write for Narrow {
    fn write(&mut self, buf: &[u8]) -> io::Result<usize> {
        let write = self.writes;
        self.writes = write.saturating_add(1);
        if write >= self.fails_at && write - self.fails_at < self.times {
            return match self.failure {
                Failure::Error(kind) => Err(Error::from(kind)),
                Failure::NoBytes => Ok(0),
            };
        }
        let n = self.most.min(buf.len());
        self.bytes.extend_from_slice(&(*at!(buf, ..n)))?;
        Ok(n)
    }

    fn flush(&mut self) -> io::Result<()> {
        self.flushes = self.flushes.saturating_add(1);
        match self.flush_fails {
            Some(kind) => Err(Error::from(kind)),
            None => Ok(()),
        }
    }
}

pub fn error_at(at: usize) -> ErrorKind {
    match at % 3 {
        0 => ErrorKind::BrokenPipe,
        1 => ErrorKind::StorageFull,
        _ => ErrorKind::Other,
    }
}

pub fn front_lines(text: &[u8], lines: usize) -> &[u8] {
    let mut left = lines;
    for (i, byte) in text.iter().enumerate() {
        if left == 0 {
            return &(*at!(text, ..i));
        }
        if *byte == b'\n' {
            left -= 1;
        }
    }
    text
}

pub fn count_lines(text: &[u8]) -> usize {
    let mut lines = 0usize;
    for byte in text {
        lines = lines.saturating_add((*byte == b'\n') as usize);
    }
    lines
}
