// Erased from crates/lru_caches/src/page_cache/laws.rt: do not edit.
//! A law: the contract of a function that does nothing.

#[allow(unused_imports)]
use crate::rattle_std::prelude::*;

use crate::erased::lru_caches::device::BlockDevice;
use crate::erased::lru_caches::page_cache::PageCache;
use crate::erased::lru_caches::page_cache::pages::Page;
use crate::erased::schnellru::KeyHasher;

impl<B: Copy, D: BlockDevice<B>, S: KeyHasher<u64>> PageCache<B, D, S> {
    /// If no page is pinned, and the cache does not keep dirty pages, the cache contains the pages that were used last.
    pub fn without_pins_the_newest_stay(&self) {
        let _ = self.map.len();
    }
}
