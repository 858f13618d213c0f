// Erased from crates/example_pages/src/disk.rt: do not edit.
//! A file, or a file in memory that can crash.
#[allow(unused_imports)]
use crate::rattle_std::prelude::*;

use crate::erased::lru_caches::Durable;
use crate::programs::test_helpers::Random;
use crate::rattle_std::alloc::{AllocError, Global};
use crate::rattle_std::cell::Cell;
use crate::rattle_std::fs::File;
use crate::rattle_std::io::{self, ErrorKind, Read, Seek, SeekFrom, Write};

/// A disk writes a sector whole. A crash may tear a page between two sectors.
const SECTOR: usize = 2048;

/// The power of a machine. After `calls_left` calls, each call fails.

pub struct Power {
    calls_left: Cell<u64>,
}

impl Power {
    pub fn new() -> Power {
        Power { calls_left: Cell::new(u64::MAX) }
    }

    pub fn set(&self, calls: u64) {
        self.calls_left.set(calls);
    }

    fn take(&self) -> bool {
        let left = self.calls_left.get();
        self.calls_left.set(left.saturating_sub(1));
        left > 0
    }
}

pub struct CrashFile<'a> {
    now: Vec<u8>,
    durable: Vec<u8>,
    at: usize,
    power: &'a Power,
}

impl<'a> CrashFile<'a> {
    pub fn new(alloc: Global, len: usize, power: &'a Power) -> Result<CrashFile<'a>, AllocError> {
        Ok(CrashFile { now: vec![in alloc; 0; len]?, durable: vec![in alloc; 0; len]?, at: 0, power })
    }

    /// Leaves in each sector, at random, its last durable bytes or its last written bytes.
    pub fn crash(&mut self, random: &mut Random) {
        let sectors = self.now.chunks_mut(SECTOR).zip(self.durable.chunks_mut(SECTOR));
        for (now, durable) in sectors {
            if now.len() == durable.len() {
                if random.below(2) == 0 {
                    durable.copy_from_slice(now);
                } else {
                    now.copy_from_slice(durable);
                }
            }
        }
    }
}

impl Read for CrashFile<'_> {
    fn read(&mut self, buf: &mut [u8]) -> io::Result<usize> {
        if !self.power.take() {
            return Err(io::Error::from(ErrorKind::Other));
        }
        let Some(rest) = self.now.get(self.at..) else {
            return Ok(0);
        };
        let count = rest.len().min(buf.len());
        (*at_mut!(buf, ..count)).copy_from_slice(&(*at!(rest, ..count)));
        self.at = self.at.saturating_add(count);
        Ok(count)
    }
}

impl Write for CrashFile<'_> {
    /// Writes the bytes even if the power fails, but then returns an error.
    fn write(&mut self, buf: &[u8]) -> io::Result<usize> {
        let has_power = self.power.take();
        let Some(rest) = self.now.as_mut_slice().get_mut(self.at..) else {
            return Ok(0);
        };
        let count = rest.len().min(buf.len());
        (*at_mut!(rest, ..count)).copy_from_slice(&(*at!(buf, ..count)));
        self.at = self.at.saturating_add(count);
        if has_power { Ok(count) } else { Err(io::Error::from(ErrorKind::Other)) }
    }

    fn flush(&mut self) -> io::Result<()> {
        Ok(())
    }
}

impl Seek for CrashFile<'_> {
    fn seek(&mut self, to: SeekFrom) -> io::Result<u64> {
        let SeekFrom::Start(at) = to else {
            return Err(io::Error::from(ErrorKind::InvalidInput));
        };
        self.at = at as usize;
        Ok(at)
    }
}

impl Durable for CrashFile<'_> {
    fn make_durable(&mut self) -> io::Result<()> {
        if !self.power.take() {
            return Err(io::Error::from(ErrorKind::Other));
        }
        if self.durable.len() == self.now.len() {
            self.durable.as_mut_slice().copy_from_slice(self.now.as_slice());
        }
        Ok(())
    }
}

pub enum Disk<'a> {
    File(File),
    Crash(CrashFile<'a>),
}

impl Disk<'_> {
    pub fn crash(&mut self, random: &mut Random) {
        if let Disk::Crash(file) = self {
            file.crash(random);
        }
    }
}

impl Read for Disk<'_> {
    fn read(&mut self, buf: &mut [u8]) -> io::Result<usize> {
        match self {
            Disk::File(file) => file.read(buf),
            Disk::Crash(file) => file.read(buf),
        }
    }
}

impl Write for Disk<'_> {
    fn write(&mut self, buf: &[u8]) -> io::Result<usize> {
        match self {
            Disk::File(file) => file.write(buf),
            Disk::Crash(file) => file.write(buf),
        }
    }

    fn flush(&mut self) -> io::Result<()> {
        match self {
            Disk::File(file) => file.flush(),
            Disk::Crash(file) => file.flush(),
        }
    }
}

impl Seek for Disk<'_> {
    fn seek(&mut self, to: SeekFrom) -> io::Result<u64> {
        match self {
            Disk::File(file) => file.seek(to),
            Disk::Crash(file) => file.seek(to),
        }
    }
}

impl Durable for Disk<'_> {
    fn make_durable(&mut self) -> io::Result<()> {
        match self {
            Disk::File(file) => file.make_durable(),
            Disk::Crash(file) => file.make_durable(),
        }
    }
}
