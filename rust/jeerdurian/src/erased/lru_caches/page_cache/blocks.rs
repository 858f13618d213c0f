// Erased from crates/lru_caches/src/page_cache/blocks.rt: do not edit.
#[allow(unused_imports)]
use crate::rattle_std::prelude::*;

use crate::erased::lru_caches::device::BlockDevice;
use crate::erased::lru_caches::page_cache::evict::{find_room, replace};
use crate::erased::lru_caches::page_cache::flush::reserve_number;
use crate::erased::lru_caches::page_cache::pages::{admit, load, overwrite, promote, read_newest, write_newest};
use crate::erased::lru_caches::page_cache::{PageCache, PageError};
use crate::erased::schnellru::KeyHasher;
use crate::rattle_std::ops::Range;

impl<B: Copy, D: BlockDevice<B>, S: KeyHasher<u64>> PageCache<B, D, S> {
    pub(super) fn bring(&mut self, n: u64) -> Result<(), PageError<D::Error>> {
        let hash = self.map.hasher().hash_named(&n);
        if promote(&mut self.map, &mut self.counts, hash, n) {
            return Ok(());
        }
        admit(&self.device, n)?;
        reserve_number(&mut self.numbers, self.map.len())?;
        let gone = find_room(&self.map, self.capacity, self.keeps_dirty)?;
        load(self.alloc, &mut self.map, &mut self.device, &mut self.counts, gone, hash, n)
    }

    /// Returns a block, and makes its page the newest.
    ///
    /// If the page is not cached and the cache is full, evicts the oldest page that may be evicted. If the evicted page
    /// is dirty, writes it to the device first. A pinned page may not be evicted. If the cache
    /// [keeps dirty pages](Self::set_keeps_dirty), a dirty page may not be evicted either.
    ///
    /// Cost: `O(1)` expected, amortised over the growth of the table, and at most one read and one write of the device.
    /// An eviction also takes `O(k)` if k pages are older than the evicted page.
    ///
    /// # Errors
    ///
    /// Fails only if the page is not cached. `Broken`, `NoBlock` or `Full`: see [`PageError`]. `Device`: the read of
    /// the block or the write of a dirty page failed. No page was evicted. `Memory`: out of memory. A page may have
    /// been evicted.
    pub fn read(&mut self, n: u64) -> Result<B, PageError<D::Error>> {
        self.read_with(n, |block| *block)
    }

    /// Does what `read` does, but lends the block to a closure, and returns what the closure returns.
    ///
    /// Cost: as `read`, plus a call of the closure.
    ///
    /// # Errors
    ///
    /// As `read`. After an error, the closure is not called.
    pub fn read_with<R, U: FnOnce(&B) -> R>(&mut self, n: u64, read: U) -> Result<R, PageError<D::Error>> {
        self.bring(n)?;
        Ok(read_newest(&self.map, read))
    }

    /// Calls `read` for each number of the range, in order.
    ///
    /// Cost: as a `read` of each block.
    ///
    /// # Errors
    ///
    /// The error of the first `read` that fails. All earlier blocks were read.
    pub fn prefetch(&mut self, blocks: Range<u64>) -> Result<(), PageError<D::Error>> {
        for n in blocks.start..blocks.end {
            self.bring(n)?;
        }
        Ok(())
    }

    /// Replaces a block in the cache, and makes its page the newest. The device gets the block later.
    ///
    /// If the page is not cached and the cache is full, evicts a page (see `read`). A pinned page stays pinned.
    ///
    /// Cost: as `read`, without the read of the device.
    ///
    /// # Errors
    ///
    /// As `read`, but `Broken` is possible even if the page is cached. After an error, the block is not replaced.
    // A call that is not inlined copies the block.
    #[inline]
    pub fn write(&mut self, n: u64, block: B) -> Result<(), PageError<D::Error>> {
        admit(&self.device, n)?;
        let hash = self.map.hasher().hash_named(&n);
        if overwrite(&mut self.map, &mut self.counts, hash, n, &block) {
            return Ok(());
        }
        reserve_number(&mut self.numbers, self.map.len())?;
        let gone = find_room(&self.map, self.capacity, self.keeps_dirty)?;
        replace(self.alloc, &mut self.map, &mut self.device, &mut self.counts, gone, hash, n, &block, true)
    }

    /// Lends a block to a closure, and returns what the closure returns. The closure may write the block in place. The
    /// page becomes dirty and the newest.
    ///
    /// If the page is not cached, reads the block first. A pinned page stays pinned.
    ///
    /// Cost: as `read`, plus a call of the closure.
    ///
    /// # Errors
    ///
    /// As `read`, but `Broken` is possible even if the page is cached. After an error, the closure is not called.
    pub fn write_with<R, U: FnOnce(&mut B) -> R>(&mut self, n: u64, write: U) -> Result<R, PageError<D::Error>> {
        if !self.device.is_usable() {
            return Err(PageError::Broken);
        }
        self.bring(n)?;
        Ok(write_newest(&mut self.map, write))
    }
}
