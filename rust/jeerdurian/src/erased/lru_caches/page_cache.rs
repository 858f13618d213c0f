// Erased from crates/lru_caches/src/page_cache.rt: do not edit.
#[allow(unused_imports)]
use crate::rattle_std::prelude::*;

use crate::erased::lru_caches::device::BlockDevice;
use crate::erased::lru_caches::page_cache::flush::{list_dirty, make_clean, write_all_back};
use crate::erased::lru_caches::page_cache::pages::{Counts, Pages};
use crate::erased::schnellru::{KeyHasher, LruMap, RandomState, UnlimitedCompact};
use crate::rattle_std::alloc::Global;
use crate::rattle_std::fmt::Display;

mod blocks;
mod boxed;
mod evict;
mod flush;
mod laws;
mod pages;
mod pins;

/// Why a call on a page cache failed. Unless a `sync` failed, the call changed no block that the cache shows.
#[derive(Debug, PartialEq)]

pub enum PageError<E> {
    /// The device failed in this call, with this error.
    Device(E),
    /// Memory ran out for one more page, or the table already holds its maximum of 1,879,048,192 pages.
    Memory,
    /// The device has no block with this number.
    NoBlock,
    /// The cache is full, and no page may be evicted. Each page is pinned, or is a dirty page that the cache keeps
    /// until a flush. Nothing has changed.
    Full,
    /// A `sync` of the device has failed, so earlier writes may be lost. Discard the cache.
    Broken,
}

impl<E> ::core::fmt::Display for PageError<E>
where
    E: Display,
{
    fn fmt(&self, f: &mut ::core::fmt::Formatter<'_>) -> ::core::fmt::Result {
        match self {
            PageError::Device(value) => write!(f, "the device failed: {0}", value),
            PageError::Memory => write!(f, "out of memory"),
            PageError::NoBlock => write!(f, "no such block"),
            PageError::Full => write!(f, "no page may be evicted"),
            PageError::Broken => write!(f, "a sync of the device has failed"),
        }
    }
}

/// A write-back cache of the blocks of a device.
///
/// The cache contains at most `capacity` pages. A write makes the cached page dirty. The cache writes a dirty page to
/// the device when it evicts or flushes the page.
///
/// After a `flush` that returned `Ok`, a crash leaves each block as the cache showed it at the flush, unless a later
/// call wrote the block. `docs/CACHES.md` names the premises.
///
/// Call `close` or `discard` at the end. Code that drops or forgets a cache does not compile, because dirty pages would
/// be lost.
pub struct PageCache<B: Copy, D: BlockDevice<B>, S = RandomState> {
    map: Pages<B, S>,
    // memory for the page numbers of a flush, reserved in advance
    numbers: Vec<u64>,
    capacity: usize,
    keeps_dirty: bool,
    counts: Counts,
    device: D,
    alloc: Global,
}

impl<B: Copy, D: BlockDevice<B>> PageCache<B, D, RandomState> {
    /// Makes an empty cache of a device. The cache holds at most `capacity` pages, or one page if `capacity` is 0.
    ///
    /// If strangers choose the block numbers, call `with_hasher`.
    ///
    /// Each block is in a box of its own. In a trial, a page took up to 160 bytes besides its block, and up to 244 while
    /// the table grew.
    ///
    /// Cost: `O(1)`, and no memory.
    pub fn new(alloc: Global, device: D, capacity: usize) -> Self {
        PageCache::with_hasher(alloc, device, capacity, RandomState::default())
    }
}

impl<B: Copy, D: BlockDevice<B>, S: KeyHasher<u64>> PageCache<B, D, S> {
    /// Makes an empty cache, with a hasher of block numbers (see `new`).
    ///
    /// Cost: `O(1)`, and no memory.
    pub fn with_hasher(alloc: Global, device: D, capacity: usize, hasher: S) -> Self {
        PageCache {
            map: LruMap::with_limiter_and_hasher(alloc, UnlimitedCompact, hasher),
            numbers: Vec::new(alloc),
            capacity: capacity.max(1),
            keeps_dirty: false,
            counts: Counts { hits: 0, misses: 0, evictions: 0 },
            device,
            alloc,
        }
    }

    /// Returns how many pages are cached.
    ///
    /// Cost: `O(1)`.
    pub fn len(&self) -> usize {
        self.map.len()
    }

    /// Returns whether no page is cached.
    ///
    /// Cost: `O(1)`.
    pub fn is_empty(&self) -> bool {
        self.map.is_empty()
    }

    /// Returns whether a page is cached.
    ///
    /// Cost: `O(1)` expected.
    pub fn contains(&self, n: u64) -> bool {
        self.map.contains(&n)
    }

    /// Returns the number of successful reads, writes and pins whose page was cached. The number stops at `u64::MAX`.
    ///
    /// Cost: `O(1)`.
    pub fn hits(&self) -> u64 {
        self.counts.hits
    }

    /// Returns the number of successful reads, writes and pins whose page was not cached. The number stops at
    /// `u64::MAX`.
    ///
    /// Cost: `O(1)`.
    pub fn misses(&self) -> u64 {
        self.counts.misses
    }

    /// Returns the number of evicted pages, which stops at `u64::MAX`.
    ///
    /// Cost: `O(1)`.
    pub fn evictions(&self) -> u64 {
        self.counts.evictions
    }

    /// Lends the device, which may still contain old blocks for the dirty pages.
    ///
    /// Cost: `O(1)`.
    pub fn device(&self) -> &D {
        &self.device
    }

    /// Writes all dirty pages to the device, and then calls its `sync`. The pages stay cached, and are clean.
    ///
    /// Cost for n dirty pages: `O(len + n log n)`, n writes of the device, and a `sync`. The `sync` is called even if n
    /// is 0.
    ///
    /// # Errors
    ///
    /// `Broken`: an earlier `sync` failed. `Device`: a write or the `sync` failed, and the dirty pages stay dirty.
    pub fn flush(&mut self) -> Result<(), PageError<D::Error>> {
        if !self.device.is_usable() {
            return Err(PageError::Broken);
        }
        list_dirty(&self.map, &mut self.numbers);
        write_all_back(&self.map, self.numbers.as_slice(), &mut self.device)?;
        make_clean(&mut self.map);
        Ok(())
    }

    /// Flushes the cache, and returns the device.
    ///
    /// Cost: as `flush`.
    ///
    /// # Errors
    ///
    /// The flush failed. The error contains the cache, whose pages have not changed.
    pub fn close(mut self) -> Result<D, Unclosed<B, D, S>>
where {
        match self.flush() {
            Ok(()) => Ok(self.discard()),
            Err(error) => Err(Unclosed { cache: self, error }),
        }
    }

    /// Drops the cached pages and returns the device. Writes since the last flush may be lost.
    ///
    /// Cost: `O(len)`.
    pub fn discard(self) -> D
where {
        let PageCache { map: _, numbers: _, capacity: _, keeps_dirty: _, counts: _, device, alloc: _ } = self;
        device
    }
}

/// A cache that was not closed, because its flush failed.
pub struct Unclosed<B: Copy, D: BlockDevice<B>, S = RandomState> {
    pub cache: PageCache<B, D, S>,
    pub error: PageError<D::Error>,
}
