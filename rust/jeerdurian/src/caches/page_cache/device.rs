//! The devices of blocks that a page cache reads and writes.

use crate::erased::lru_caches as proved;

/// A device of numbered blocks, such as a disk or a file. Any call may fail.
///
/// The promises of a [`PageCache`](super::PageCache) are proved for devices whose calls do what their docs say. A cache
/// passes blocks by value through the stack, so blocks of several hundred KiB may overflow the stack of a thread.
///
/// ```
/// use jeerdurian::caches::BlockDevice;
///
/// struct Disk([u64; 4]);
///
/// impl BlockDevice<u64> for Disk {
///     type Error = &'static str;
///
///     fn has(&self, n: u64) -> bool {
///         n < 4
///     }
///     fn read(&mut self, n: u64) -> Result<u64, &'static str> {
///         Ok(self.0[n as usize])
///     }
///     fn write(&mut self, n: u64, block: &u64) -> Result<(), &'static str> {
///         self.0[n as usize] = *block;
///         Ok(())
///     }
///     fn sync(&mut self) -> Result<(), &'static str> {
///         Ok(())
///     }
/// }
///
/// assert_eq!(Disk([10, 11, 12, 13]).read(1), Ok(11));
/// ```
pub trait BlockDevice<B> {
    /// Why a call fails.
    type Error;

    /// Returns whether the device has a block of this number. A cache calls this before it reads or writes the block.
    fn has(&self, n: u64) -> bool;

    /// Returns whether all `sync`s succeeded so far. A cache itself remembers if one of its syncs failed or
    /// panicked.
    fn is_usable(&self) -> bool {
        true
    }

    /// Returns the block that was last written at this number. A [`HashedFileDevice`](super::super::HashedFileDevice)
    /// returns its checksum in place of the last 8 bytes that were written.
    ///
    /// # Errors
    ///
    /// The device failed. No block has changed.
    fn read(&mut self, n: u64) -> Result<B, Self::Error>;

    /// Replaces a block. Until a `sync`, a crash may leave the old block, the new block, or a torn block.
    ///
    /// # Errors
    ///
    /// The device failed. This block may be anything then, and no other block has changed.
    fn write(&mut self, n: u64, block: &B) -> Result<(), Self::Error>;

    /// Makes the written blocks durable: after an `Ok`, a crash loses no block that was written before.
    ///
    /// # Errors
    ///
    /// The device failed. What was written since the last `sync` that returned `Ok` may be lost.
    fn sync(&mut self) -> Result<(), Self::Error>;
}

/// A device as the proved cache calls it, and whether one of the syncs has failed.
pub(super) struct Called<D>(pub(super) D, pub(super) bool);

impl<B, D: BlockDevice<B>> proved::BlockDevice<B> for Called<D> {
    type Error = D::Error;
    type Seen = B;

    fn has(&self, n: u64) -> bool {
        self.0.has(n)
    }

    fn is_usable(&self) -> bool {
        !self.1 && self.0.is_usable()
    }

    fn read(&mut self, n: u64) -> Result<B, D::Error> {
        self.0.read(n)
    }

    fn write(&mut self, n: u64, block: &B) -> Result<(), D::Error> {
        self.0.write(n, block)
    }

    fn sync(&mut self) -> Result<(), D::Error> {
        // A sync that panics has failed, too.
        self.1 = true;
        let synced = self.0.sync();
        self.1 = synced.is_err();
        synced
    }
}
