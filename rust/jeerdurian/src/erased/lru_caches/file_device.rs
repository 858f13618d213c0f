// Erased from crates/lru_caches/src/file_device.rt: do not edit.
#[allow(unused_imports)]
use crate::rattle_std::prelude::*;

use crate::erased::lru_caches::device::BlockDevice;
use crate::erased::lru_caches::file_device::durable::Durable;
use crate::erased::lru_caches::file_device::recorded::{RecordedFile, blocks_of};
use crate::rattle_std::io::{Read, Seek, Write};

pub(crate) mod checksum;
pub(crate) mod durable;
pub(crate) mod hashed;
pub(crate) mod record;
pub(crate) mod recorded;

/// Why a call on a file device failed.
#[derive(Clone, Copy, Debug, PartialEq)]
pub enum FileError {
    /// A seek, a read, a write or a sync of the file failed.
    File,
    /// The checksum of the block is wrong.
    Damaged,
}

impl ::core::fmt::Display for FileError {
    fn fmt(&self, f: &mut ::core::fmt::Formatter<'_>) -> ::core::fmt::Result {
        match self {
            FileError::File => write!(f, "the file failed"),
            FileError::Damaged => write!(f, "a damaged block"),
        }
    }
}

/// A device whose blocks are parts of a file. Each block has `N` bytes.
///
/// [`HashedFileDevice`] also detects torn and damaged blocks.
///
/// [`HashedFileDevice`]: crate::HashedFileDevice

pub struct FileDevice<F, const N: usize> {
    file: RecordedFile<F>,
    count: u64,
    is_usable: bool,
}

impl<F: Read + Write + Seek, const N: usize> FileDevice<F, N> {
    /// Makes a device of the first `count` blocks of a file. The file may be shorter: past its end, a read fails, and a
    /// write makes the file longer.
    ///
    /// Cost: `O(1)`, and no call on the file.
    pub fn new(file: F, count: u64) -> Self {
        FileDevice { file: RecordedFile::new(file), count, is_usable: true }
    }

    /// Makes a device of all whole blocks of the file. Nothing is proved about the number of blocks.
    ///
    /// Cost: a seek to the end of the file.
    ///
    /// # Errors
    ///
    /// `File`: the seek failed, or N is 0.
    pub fn open(mut file: F) -> Result<Self, FileError>
where {
        let count = blocks_of(&mut file, N)?;
        Ok(FileDevice::new(file, count))
    }

    /// Returns the number of blocks.
    ///
    /// Cost: `O(1)`.
    pub fn len(&self) -> u64 {
        self.count
    }

    /// Lends the file.
    ///
    /// Cost: `O(1)`.
    pub fn file(&self) -> &F {
        &self.file.file
    }

    /// Returns the file. Call `sync` first.
    ///
    /// Cost: `O(1)`.
    pub fn into_file(self) -> F {
        let FileDevice { file, count: _, is_usable: _ } = self;
        file.into_inner()
    }
}

impl<F: Read + Write + Seek + Durable, const N: usize> BlockDevice<[u8; N]> for FileDevice<F, N> {
    type Error = FileError;

    type Seen = [u8; N];

    fn has(&self, n: u64) -> bool {
        n < self.count
    }

    fn is_usable(&self) -> bool {
        self.is_usable
    }

    fn read(&mut self, n: u64) -> Result<[u8; N], FileError> {
        self.file.read_block(n)
    }

    fn write(&mut self, n: u64, block: &[u8; N]) -> Result<(), FileError> {
        self.file.write_block(n, block)
    }

    fn sync(&mut self) -> Result<(), FileError> {
        let synced = self.file.sync();
        self.is_usable = synced.is_ok();
        synced
    }
}
