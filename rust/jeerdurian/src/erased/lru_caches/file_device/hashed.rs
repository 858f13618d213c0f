// Erased from crates/lru_caches/src/file_device/hashed.rt: do not edit.
#[allow(unused_imports)]
use crate::rattle_std::prelude::*;

use crate::erased::lru_caches::device::BlockDevice;
use crate::erased::lru_caches::file_device::FileError;
use crate::erased::lru_caches::file_device::checksum::with_checksum;
use crate::erased::lru_caches::file_device::durable::Durable;
use crate::erased::lru_caches::file_device::recorded::{RecordedFile, blocks_of};
use crate::rattle_std::io::{Read, Seek, Write};

/// A device like `FileDevice`, whose blocks of `N` bytes contain checksums.
///
/// A write replaces the last 8 bytes of the block by the hash of the other bytes and of the block's number. Contracts
/// do not see this checksum. A read returns `Ok` only if the checksum is right, so it detects a torn, damaged or
/// misplaced block, unless the hashes happen to be equal.

pub struct HashedFileDevice<F, const N: usize> {
    file: RecordedFile<F>,
    count: u64,
    is_usable: bool,
}

impl<F: Read + Write + Seek, const N: usize> HashedFileDevice<F, N> {
    /// Makes a device of the first `count` blocks of a file, which may be shorter (see `FileDevice::new`).
    ///
    /// Cost: `O(1)`, and no call on the file.
    pub fn new(file: F, count: u64) -> Self {
        HashedFileDevice { file: RecordedFile::new(file), count, is_usable: true }
    }

    /// Makes a device of all whole blocks of the file, as `FileDevice::open` does.
    ///
    /// Cost and `# Errors`: as `FileDevice::open`.
    pub fn open(mut file: F) -> Result<Self, FileError>
where {
        let count = blocks_of(&mut file, N)?;
        Ok(HashedFileDevice::new(file, count))
    }

    /// Returns the number of blocks.
    ///
    /// Cost: `O(1)`.
    pub fn len(&self) -> u64 {
        self.count
    }

    /// Lends the file.
    ///
    /// Cost: `O(1)`.
    pub fn file(&self) -> &F {
        &self.file.file
    }

    /// Returns the file. Call `sync` first.
    ///
    /// Cost: `O(1)`.
    pub fn into_file(self) -> F {
        let HashedFileDevice { file, count: _, is_usable: _ } = self;
        file.into_inner()
    }
}

impl<F: Read + Write + Seek + Durable, const N: usize> BlockDevice<[u8; N]> for HashedFileDevice<F, N> {
    type Error = FileError;

    type Seen = [u8; N];

    fn has(&self, n: u64) -> bool {
        n < self.count
    }

    fn is_usable(&self) -> bool {
        self.is_usable
    }

    fn read(&mut self, n: u64) -> Result<[u8; N], FileError> {
        self.file.read_checked(n)
    }

    fn write(&mut self, n: u64, block: &[u8; N]) -> Result<(), FileError> {
        let stamped = with_checksum(block, n);
        self.file.write_block(n, &stamped)
    }

    fn sync(&mut self) -> Result<(), FileError> {
        let synced = self.file.sync();
        self.is_usable = synced.is_ok();
        synced
    }
}
