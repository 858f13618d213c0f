//! A write-back cache of the blocks of a device.

mod close;
mod device;

pub use close::Unclosed;
#[cfg(feature = "runtime-rng")]
pub use close::with_cache;
pub use device::BlockDevice;

use crate::RandomState;
use crate::erased::lru_caches as proved;
use crate::rattle_std::alloc::Global;
use core::hash::BuildHasher;
use device::Called;

/// Why a call on a page cache failed. A failed call changes no block that the cache shows, unless a `sync` of the
/// device failed. After that, writes and flushes return `Broken`, and so do reads and pins of uncached pages.
///
/// ```
/// use jeerdurian::caches::PageError;
///
/// let error: PageError<&str> = PageError::Device("unplugged");
/// assert_eq!(error.to_string(), "the device failed: unplugged");
/// ```
pub use crate::erased::lru_caches::PageError;

impl<E: core::error::Error> core::error::Error for PageError<E> {}

/// A write-back cache of the blocks of a device.
///
/// It keeps the pages that were used last, up to its capacity. A write changes only the cached page. The page is then
/// dirty, and is written to the device when it is evicted or flushed.
///
/// Proved: if the device does what its docs say, a crash after a flush that returned `Ok` leaves each block as it was
/// shown at the flush, or as it was written later. A call that fails shows the same blocks as before. After a `sync`
/// failed, writes and flushes return `Broken`, and so do reads and pins of uncached pages.
///
/// A cache that is dropped loses its dirty pages silently, so call [`close`](Self::close).
///
/// ```
/// use jeerdurian::caches::{FileDevice, PageCache};
///
/// # fn main() -> Result<(), Box<dyn std::error::Error>> {
/// let file = std::io::Cursor::new(*b"zeroone.two."); // or a `File`
/// let mut cache = PageCache::new(FileDevice::<_, 4>::new(file, 3), 2);
/// cache.write(1, *b"uno.")?;
/// assert_eq!(cache.read(1)?, *b"uno.");
/// let device = cache.close().map_err(|unclosed| unclosed.error)?;
/// assert_eq!(device.into_file().into_inner(), *b"zerouno.two.");
/// # Ok(())
/// # }
/// ```
///
/// In the examples of the calls, `cache` keeps at most two pages of a device of three blocks of 4 bytes.
#[must_use = "a cache that is dropped loses its dirty pages"]
pub struct PageCache<B: Copy, D: BlockDevice<B>, S = RandomState> {
    cache: proved::PageCache<B, Called<D>, S>,
}

#[cfg(feature = "runtime-rng")]
impl<B: Copy, D: BlockDevice<B>> PageCache<B, D> {
    /// Makes an empty cache of a device, for at most `capacity` pages; 0 counts as 1. Its hasher of block numbers has
    /// random seeds. Cost: `O(1)`, and no memory.
    ///
    /// Each block is in a box of its own. In a trial, a page took up to 160 bytes besides its block (244 while the table
    /// grew). Choose `capacity` so that this memory is there.
    ///
    /// ```
    /// # use jeerdurian::caches::{FileDevice, PageCache};
    /// # let file = std::io::Cursor::new(*b"zeroone.two.");
    /// # let mut cache = PageCache::new(FileDevice::<_, 4>::new(file, 3), 2);
    /// assert!(cache.is_empty());
    /// ```
    pub fn new(device: D, capacity: usize) -> Self {
        Self::with_hasher(device, capacity, RandomState::default())
    }
}

impl<B: Copy, D: BlockDevice<B>, S: BuildHasher> PageCache<B, D, S> {
    /// Makes an empty cache as `new` does, with this hasher of block numbers. Cost: `O(1)`, and no memory.
    ///
    /// ```
    /// # use jeerdurian::caches::{FileDevice, PageCache};
    /// # let file = std::io::Cursor::new(*b"zeroone.two.");
    /// # let mut cache = PageCache::new(FileDevice::<_, 4>::new(file, 3), 2);
    /// let cache = PageCache::with_hasher(cache.discard(), 2, std::hash::RandomState::new());
    /// assert!(cache.is_empty());
    /// ```
    pub fn with_hasher(device: D, capacity: usize, hasher: S) -> Self {
        PageCache { cache: proved::PageCache::with_hasher(Global, Called(device, false), capacity, hasher) }
    }

    /// Returns the number of cached pages. Cost: `O(1)`.
    ///
    /// ```
    /// # use jeerdurian::caches::{FileDevice, PageCache};
    /// # let file = std::io::Cursor::new(*b"zeroone.two.");
    /// # let mut cache = PageCache::new(FileDevice::<_, 4>::new(file, 3), 2);
    /// assert_eq!((cache.read(1), cache.len()), (Ok(*b"one."), 1));
    /// ```
    pub fn len(&self) -> usize {
        self.cache.len()
    }

    /// Returns whether no page is cached. Cost: `O(1)`.
    ///
    /// ```
    /// # use jeerdurian::caches::{FileDevice, PageCache};
    /// # let file = std::io::Cursor::new(*b"zeroone.two.");
    /// # let mut cache = PageCache::new(FileDevice::<_, 4>::new(file, 3), 2);
    /// assert!(cache.is_empty());
    /// ```
    pub fn is_empty(&self) -> bool {
        self.cache.is_empty()
    }

    /// Returns whether a page is cached. The order of use stays. Cost: `O(1)` expected.
    ///
    /// ```
    /// # use jeerdurian::caches::{FileDevice, PageCache};
    /// # let file = std::io::Cursor::new(*b"zeroone.two.");
    /// # let mut cache = PageCache::new(FileDevice::<_, 4>::new(file, 3), 2);
    /// assert_eq!(cache.read(1), Ok(*b"one."));
    /// assert!(cache.contains(1) && !cache.contains(2));
    /// ```
    pub fn contains(&self, n: u64) -> bool {
        self.cache.contains(n)
    }

    /// Returns how many calls that read, write or pin a page found it cached. Failed calls do not count. The count
    /// stops at `u64::MAX`. Cost: `O(1)`.
    ///
    /// ```
    /// # use jeerdurian::caches::{FileDevice, PageCache};
    /// # let file = std::io::Cursor::new(*b"zeroone.two.");
    /// # let mut cache = PageCache::new(FileDevice::<_, 4>::new(file, 3), 2);
    /// assert_eq!((cache.read(1), cache.read(1)), (Ok(*b"one."), Ok(*b"one.")));
    /// assert_eq!((cache.hits(), cache.misses()), (1, 1));
    /// ```
    pub fn hits(&self) -> u64 {
        self.cache.hits()
    }

    /// Returns how many calls that read, write or pin a page did not find it cached, counted as by
    /// [`hits`](Self::hits). Cost: `O(1)`.
    ///
    /// ```
    /// # use jeerdurian::caches::{FileDevice, PageCache};
    /// # let file = std::io::Cursor::new(*b"zeroone.two.");
    /// # let mut cache = PageCache::new(FileDevice::<_, 4>::new(file, 3), 2);
    /// assert_eq!((cache.read(1), cache.read(9).is_err(), cache.misses()), (Ok(*b"one."), true, 1));
    /// ```
    pub fn misses(&self) -> u64 {
        self.cache.misses()
    }

    /// Returns how many pages were evicted, at most `u64::MAX`. Cost: `O(1)`.
    ///
    /// ```
    /// # use jeerdurian::caches::{FileDevice, PageCache};
    /// # let file = std::io::Cursor::new(*b"zeroone.two.");
    /// # let mut cache = PageCache::new(FileDevice::<_, 4>::new(file, 3), 2);
    /// assert!((0..3).all(|n| cache.read(n).is_ok()));
    /// assert_eq!((cache.misses(), cache.evictions()), (3, 1));
    /// ```
    pub fn evictions(&self) -> u64 {
        self.cache.evictions()
    }

    /// Returns the device. Writes that are only in dirty pages are not on it. Cost: `O(1)`.
    ///
    /// ```
    /// # use jeerdurian::caches::{FileDevice, PageCache};
    /// # let file = std::io::Cursor::new(*b"zeroone.two.");
    /// # let mut cache = PageCache::new(FileDevice::<_, 4>::new(file, 3), 2);
    /// assert_eq!(cache.write(1, *b"uno."), Ok(()));
    /// assert_eq!(cache.device().file().get_ref(), b"zeroone.two.");
    /// ```
    pub fn device(&self) -> &D {
        &self.cache.device().0
    }

    /// Returns a block, and makes its page the newest.
    ///
    /// A cached page is returned without the device. Otherwise the block is read from the device and cached. If the
    /// cache is full, the oldest page that may go is evicted; if this page is dirty, it is first written to the device.
    /// [Pinned](Self::pin) pages may not go, nor may dirty pages if the cache [keeps them](Self::set_keeps_dirty).
    ///
    /// Cost: `O(1)` expected, amortised over the growth of the table, and at most one read and one write of the device;
    /// if a page is evicted, also `O(k)` for k older pages that may not go.
    ///
    /// # Errors
    ///
    /// None if the page is cached. `Broken`: a `sync` has failed. `NoBlock`: the device has no such block. `Full`: no
    /// page may go. `Device`: the read failed, or a page could not be written back. `Memory`: out of memory for one
    /// page more; a page may have been evicted.
    ///
    /// ```
    /// # use jeerdurian::caches::{FileDevice, PageCache};
    /// # let file = std::io::Cursor::new(*b"zeroone.two.");
    /// # let mut cache = PageCache::new(FileDevice::<_, 4>::new(file, 3), 2);
    /// assert_eq!((cache.read(0), cache.read(1), cache.read(2)), (Ok(*b"zero"), Ok(*b"one."), Ok(*b"two.")));
    /// assert!(!cache.contains(0));
    /// ```
    pub fn read(&mut self, n: u64) -> Result<B, PageError<D::Error>> {
        self.cache.read(n)
    }

    /// Does what `read` does, but lends the block to a closure, and returns what the closure returns. Cost: as `read`,
    /// plus a call of the closure.
    ///
    /// # Errors
    ///
    /// As for `read`. The closure is not called then.
    ///
    /// ```
    /// # use jeerdurian::caches::{FileDevice, PageCache};
    /// # let file = std::io::Cursor::new(*b"zeroone.two.");
    /// # let mut cache = PageCache::new(FileDevice::<_, 4>::new(file, 3), 2);
    /// assert_eq!(cache.read_with(1, |block| block[0]), Ok(b'o'));
    /// ```
    pub fn read_with<R>(&mut self, n: u64, read: impl FnOnce(&B) -> R) -> Result<R, PageError<D::Error>> {
        self.cache.read_with(n, read)
    }

    /// Reads the blocks of these numbers into the cache, in order, each as `read` does. Cost: as a `read` of each.
    ///
    /// # Errors
    ///
    /// The error of the first `read` that fails. The blocks before it were read.
    ///
    /// ```
    /// # use jeerdurian::caches::{FileDevice, PageCache};
    /// # let file = std::io::Cursor::new(*b"zeroone.two.");
    /// # let mut cache = PageCache::new(FileDevice::<_, 4>::new(file, 3), 2);
    /// assert!(cache.prefetch(1..3) == Ok(()) && cache.contains(1) && cache.contains(2));
    /// ```
    pub fn prefetch(&mut self, blocks: core::ops::Range<u64>) -> Result<(), PageError<D::Error>> {
        self.cache.prefetch(blocks)
    }

    /// Replaces a block in the cache, and makes its page the newest. The device gets the block later.
    ///
    /// Cost: `O(1)` expected, amortised over the growth of the table, and at most one write of the device.
    ///
    /// # Errors
    ///
    /// As for `read`, and `Broken` also if the page is cached. The block is not replaced then.
    ///
    /// ```
    /// # use jeerdurian::caches::{FileDevice, PageCache};
    /// # let file = std::io::Cursor::new(*b"zeroone.two.");
    /// # let mut cache = PageCache::new(FileDevice::<_, 4>::new(file, 3), 2);
    /// assert_eq!((cache.write(1, *b"uno."), cache.read(1)), (Ok(()), Ok(*b"uno.")));
    /// ```
    pub fn write(&mut self, n: u64, block: B) -> Result<(), PageError<D::Error>> {
        self.cache.write(n, block)
    }

    /// Lends a block to a closure that may write to it, makes its page dirty and the newest, and returns what the
    /// closure returns. If the page is not cached, the block is read first. If the closure panics, the page is dirty,
    /// with what the closure wrote. Cost: as `read`, plus a call of the closure.
    ///
    /// # Errors
    ///
    /// `Broken`: a `sync` has failed. Otherwise as `read`. The closure is not called then.
    ///
    /// ```
    /// # use jeerdurian::caches::{FileDevice, PageCache};
    /// # let file = std::io::Cursor::new(*b"zeroone.two.");
    /// # let mut cache = PageCache::new(FileDevice::<_, 4>::new(file, 3), 2);
    /// assert_eq!(cache.write_with(1, |block| block[0] = b'O'), Ok(()));
    /// assert_eq!(cache.read(1), Ok(*b"One."));
    /// ```
    pub fn write_with<R>(&mut self, n: u64, write: impl FnOnce(&mut B) -> R) -> Result<R, PageError<D::Error>> {
        self.cache.write_with(n, write)
    }

    /// Pins a page, and makes it the newest. If it is not cached, first reads it. A pinned page is not evicted until
    /// [`unpin`](Self::unpin): one `unpin` ends all pins of a page. A flush writes pinned pages, too. Cost: as `read`.
    ///
    /// # Errors
    ///
    /// As for `read`.
    ///
    /// ```
    /// # use jeerdurian::caches::{FileDevice, PageCache, PageError};
    /// # let file = std::io::Cursor::new(*b"zeroone.two.");
    /// # let mut cache = PageCache::new(FileDevice::<_, 4>::new(file, 3), 2);
    /// assert_eq!((cache.pin(0), cache.pin(1), cache.read(2)), (Ok(()), Ok(()), Err(PageError::Full)));
    /// assert!(cache.unpin(0) && cache.read(2) == Ok(*b"two.") && !cache.contains(0));
    /// ```
    pub fn pin(&mut self, n: u64) -> Result<(), PageError<D::Error>> {
        self.cache.pin(n)
    }

    /// Ends all pins of a page, and returns whether it was pinned. The order of use stays. Cost: `O(1)` expected.
    ///
    /// ```
    /// # use jeerdurian::caches::{FileDevice, PageCache};
    /// # let file = std::io::Cursor::new(*b"zeroone.two.");
    /// # let mut cache = PageCache::new(FileDevice::<_, 4>::new(file, 3), 2);
    /// assert!(cache.pin(1) == Ok(()) && cache.unpin(1) && !cache.unpin(1));
    /// ```
    pub fn unpin(&mut self, n: u64) -> bool {
        self.cache.unpin(n)
    }

    /// Returns whether a page is pinned. The order of use stays. Cost: `O(1)` expected.
    ///
    /// ```
    /// # use jeerdurian::caches::{FileDevice, PageCache};
    /// # let file = std::io::Cursor::new(*b"zeroone.two.");
    /// # let mut cache = PageCache::new(FileDevice::<_, 4>::new(file, 3), 2);
    /// assert!(!cache.is_pinned(1) && cache.pin(1) == Ok(()) && cache.is_pinned(1));
    /// ```
    pub fn is_pinned(&self, n: u64) -> bool {
        self.cache.is_pinned(n)
    }

    /// Returns whether dirty pages are kept until a flush. By default they are not. Cost: `O(1)`.
    ///
    /// ```
    /// # use jeerdurian::caches::{FileDevice, PageCache};
    /// # let file = std::io::Cursor::new(*b"zeroone.two.");
    /// # let mut cache = PageCache::new(FileDevice::<_, 4>::new(file, 3), 2);
    /// assert!(!cache.keeps_dirty());
    /// ```
    pub fn keeps_dirty(&self) -> bool {
        self.cache.keeps_dirty()
    }

    /// Sets whether dirty pages are kept until a flush. If they are, calls write to the device only to flush, so a log
    /// of the writes can be written and synced before. If each page is dirty or pinned, a call that must evict a page
    /// returns `Full`. Cost: `O(1)`.
    ///
    /// ```
    /// # use jeerdurian::caches::{FileDevice, PageCache, PageError};
    /// # let file = std::io::Cursor::new(*b"zeroone.two.");
    /// # let mut cache = PageCache::new(FileDevice::<_, 4>::new(file, 3), 2);
    /// cache.set_keeps_dirty(true);
    /// assert_eq!((cache.write(0, *b"new."), cache.write(1, *b"new.")), (Ok(()), Ok(())));
    /// assert_eq!((cache.read(2), cache.flush(), cache.read(2)), (Err(PageError::Full), Ok(()), Ok(*b"two.")));
    /// ```
    pub fn set_keeps_dirty(&mut self, keeps_dirty: bool) {
        self.cache.set_keeps_dirty(keeps_dirty);
    }

    /// Writes the dirty pages to the device, in the order of their numbers, and then calls `sync`. The pages stay
    /// cached, and are clean then. Cost for n dirty pages: `O(len + n log n)`, n writes of the device, and a `sync`.
    ///
    /// # Errors
    ///
    /// `Device`: a write or the `sync` failed. Dirty pages stay dirty. After a failed `sync`, each flush returns
    /// `Broken`.
    ///
    /// ```
    /// # use jeerdurian::caches::{FileDevice, PageCache};
    /// # let file = std::io::Cursor::new(*b"zeroone.two.");
    /// # let mut cache = PageCache::new(FileDevice::<_, 4>::new(file, 3), 2);
    /// assert_eq!((cache.write(1, *b"uno."), cache.flush()), (Ok(()), Ok(())));
    /// assert_eq!(cache.device().file().get_ref(), b"zerouno.two.");
    /// ```
    pub fn flush(&mut self) -> Result<(), PageError<D::Error>> {
        self.cache.flush()
    }

    /// Writes a page to the device if it is cached and dirty. It does not call `sync`: until a flush, a crash may lose the
    /// block. The page is clean then. Cost: `O(1)` expected, and at most one write of the device.
    ///
    /// # Errors
    ///
    /// `Device`: the write failed, and the page stays dirty. `Broken`: a `sync` has failed.
    ///
    /// ```
    /// # use jeerdurian::caches::{FileDevice, PageCache};
    /// # let file = std::io::Cursor::new(*b"zeroone.two.");
    /// # let mut cache = PageCache::new(FileDevice::<_, 4>::new(file, 3), 2);
    /// assert_eq!((cache.write(1, *b"uno."), cache.flush_page(1)), (Ok(()), Ok(())));
    /// assert_eq!((cache.device().file().get_ref(), cache.dirty_len()), (b"zerouno.two.", 0));
    /// ```
    pub fn flush_page(&mut self, n: u64) -> Result<(), PageError<D::Error>> {
        self.cache.flush_page(n)
    }

    /// Returns how many pages are dirty. Cost: `O(len)`.
    ///
    /// ```
    /// # use jeerdurian::caches::{FileDevice, PageCache};
    /// # let file = std::io::Cursor::new(*b"zeroone.two.");
    /// # let mut cache = PageCache::new(FileDevice::<_, 4>::new(file, 3), 2);
    /// assert_eq!((cache.write(1, *b"uno."), cache.dirty_len()), (Ok(()), 1));
    /// ```
    pub fn dirty_len(&self) -> usize {
        self.cache.dirty_len()
    }
}
