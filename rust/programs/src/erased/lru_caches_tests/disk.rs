// Erased from crates/lru_caches_tests/src/disk.rt: do not edit.
//! A disk in memory that can fail and crash.

#[allow(unused_imports)]
use crate::rattle_std::prelude::*;

use crate::erased::lru_caches::BlockDevice;
use crate::rattle_std::cell::Cell;

#[derive(Clone, Copy, Debug, PartialEq)]
pub struct DiskError;

/// What a failed write leaves in its block.
pub const TORN: u64 = 99;

/// A disk of four blocks. A written block stays in a volatile cache until a sync.
///
/// After `calls_left` calls, the next call fails. A failed write leaves its block torn. A crash or a failed `sync`
/// undoes the writes to the blocks of `dropped` since the last sync, and keeps all other writes.

pub struct Disk<'a> {
    pub blocks: [u64; 4],
    synced: [u64; 4],
    dropped: [bool; 4],
    pub calls_left: &'a Cell<u64>,
    faults: u64,
    is_usable: bool,
}

impl<'a> Disk<'a> {
    pub fn new(blocks: [u64; 4], dropped: [bool; 4], calls_left: &'a Cell<u64>) -> Self {
        Disk { blocks, synced: blocks, dropped, calls_left, faults: 0, is_usable: true }
    }

    fn works(&mut self) -> bool {
        let left = self.calls_left.get();
        self.calls_left.set(left.wrapping_sub(1));
        if left == 0 {
            self.faults = self.faults.wrapping_add(1);
        }
        left > 0
    }

    fn lose(&mut self) {
        for n in 0..4usize {
            if (*at!(self.dropped, n)) {
                (*at_mut!(self.blocks, n)) = (*at!(self.synced, n));
            }
        }
        self.synced = self.blocks;
    }

    pub fn crash(&mut self) {
        self.lose();
        self.is_usable = true;
    }
}

impl BlockDevice<u64> for Disk<'_> {
    type Error = DiskError;

    type Seen = u64;

    fn has(&self, n: u64) -> bool {
        n < 4
    }

    fn is_usable(&self) -> bool {
        self.is_usable
    }

    fn read(&mut self, n: u64) -> Result<u64, DiskError> {
        if self.works() { Ok((*at!(self.blocks, n as usize))) } else { Err(DiskError) }
    }

    fn write(&mut self, n: u64, block: &u64) -> Result<(), DiskError> {
        if self.works() {
            (*at_mut!(self.blocks, n as usize)) = *block;
            Ok(())
        } else {
            (*at_mut!(self.blocks, n as usize)) = TORN;
            Err(DiskError)
        }
    }

    fn sync(&mut self) -> Result<(), DiskError> {
        if self.works() {
            self.synced = self.blocks;
            Ok(())
        } else {
            self.lose();
            self.is_usable = false;
            Err(DiskError)
        }
    }
}
