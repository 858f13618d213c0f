// Erased from crates/lru_caches/src/device.rt: do not edit.
#[allow(unused_imports)]
use crate::rattle_std::prelude::*;

/// A device of numbered blocks, such as a disk or a file. Each `read`, `write` or `sync` may fail.
///
/// After a crash, each block may be the block of the last `sync`, a block that was written later, or a torn block. A
/// write changes only its own block, even if the write fails or the machine stops in the middle. After a failed `sync`,
/// no clause says what the blocks are, and no `read`, `write` or `sync` may be called.
///
/// For most devices, contracts see the block itself: `ghost seen = { λ block. block };`.
pub trait BlockDevice<B> {
    /// Why a call fails.
    type Error;

    /// The type of a block, as contracts see it.
    type Seen;

    /// Returns whether the device has a block with this number.
    fn has(&self, n: u64) -> bool;

    /// Returns true unless a `sync` has failed.
    fn is_usable(&self) -> bool;

    /// Returns a block. A block that was not known may become known.
    ///
    /// # Errors
    ///
    /// The device failed. No block has changed.
    fn read(&mut self, n: u64) -> Result<B, Self::Error>;

    /// Replaces a block. A crash may now also leave the new block or a torn block.
    ///
    /// # Errors
    ///
    /// The device failed. The block with this number may be anything now, and no other block has changed.
    fn write(&mut self, n: u64, block: &B) -> Result<(), Self::Error>;

    /// Makes the blocks durable. After an `Ok`, a crash leaves each known block as it is.
    ///
    /// # Errors
    ///
    /// The device failed, and is not usable from then on. What was written since the last `sync` may be lost.
    fn sync(&mut self) -> Result<(), Self::Error>;
}
