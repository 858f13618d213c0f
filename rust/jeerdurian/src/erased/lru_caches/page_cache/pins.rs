// Erased from crates/lru_caches/src/page_cache/pins.rt: do not edit.
#[allow(unused_imports)]
use crate::rattle_std::prelude::*;

use crate::erased::lru_caches::device::BlockDevice;
use crate::erased::lru_caches::page_cache::pages::{is_pinned_at, pin_newest, unpin_page};
use crate::erased::lru_caches::page_cache::{PageCache, PageError};
use crate::erased::schnellru::KeyHasher;

impl<B: Copy, D: BlockDevice<B>, S: KeyHasher<u64>> PageCache<B, D, S> {
    /// Pins a page and makes it the newest. If the page is not cached, reads it first. The page is not evicted until
    /// `unpin`.
    ///
    /// One `unpin` ends all pins of a page. A flush also writes dirty pages that are pinned.
    ///
    /// Cost and `# Errors`: as `read`.
    pub fn pin(&mut self, n: u64) -> Result<(), PageError<D::Error>> {
        self.bring(n)?;
        pin_newest(&mut self.map);
        Ok(())
    }

    /// Ends the pin of a page, and returns whether there was a pin. Does not change the order of use.
    ///
    /// Cost: `O(1)` expected.
    pub fn unpin(&mut self, n: u64) -> bool {
        unpin_page(&mut self.map, n)
    }

    /// Returns whether a page is pinned.
    ///
    /// Cost: `O(1)` expected.
    pub fn is_pinned(&self, n: u64) -> bool {
        is_pinned_at(&self.map, n)
    }

    /// Returns whether the cache keeps dirty pages until a flush. A new cache does not keep dirty pages.
    ///
    /// Cost: `O(1)`.
    pub fn keeps_dirty(&self) -> bool {
        self.keeps_dirty
    }

    /// Sets whether the cache keeps dirty pages until a flush. If it does, only flushes write to the device.
    ///
    /// Cost: `O(1)`.
    pub fn set_keeps_dirty(&mut self, keeps_dirty: bool) {
        self.keeps_dirty = keeps_dirty;
    }
}
