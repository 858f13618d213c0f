//! The ends of a page cache: it is closed, or its dirty pages are lost.

use super::{BlockDevice, PageCache, PageError};
use crate::RandomState;
use crate::erased::lru_caches as proved;
use core::error::Error;
use core::fmt::{self, Display, Formatter};
use core::hash::BuildHasher;

impl<B: Copy, D: BlockDevice<B>, S: BuildHasher> PageCache<B, D, S> {
    /// Flushes the cache, and returns the device. Cost: as `flush`.
    ///
    /// # Errors
    ///
    /// The flush failed. The error contains the cache, with the same pages.
    ///
    /// ```
    /// # use jeerdurian::caches::{FileDevice, PageCache};
    /// # let file = std::io::Cursor::new(*b"zeroone.two.");
    /// # let mut cache = PageCache::new(FileDevice::<_, 4>::new(file, 3), 2);
    /// assert_eq!(cache.write(1, *b"uno."), Ok(()));
    /// let device = cache.close().ok().unwrap();
    /// assert_eq!(device.file().get_ref(), b"zerouno.two.");
    /// ```
    #[allow(clippy::result_large_err)]
    pub fn close(self) -> Result<D, Unclosed<B, D, S>> {
        match self.cache.close() {
            Ok(device) => Ok(device.0),
            Err(proved::Unclosed { cache, error }) => Err(Unclosed { cache: PageCache { cache }, error }),
        }
    }

    /// Drops the cached pages and returns the device. Writes since the last flush may be lost. Cost: `O(len)`.
    ///
    /// ```
    /// # use jeerdurian::caches::{FileDevice, PageCache};
    /// # let file = std::io::Cursor::new(*b"zeroone.two.");
    /// # let mut cache = PageCache::new(FileDevice::<_, 4>::new(file, 3), 2);
    /// assert_eq!(cache.write(1, *b"uno."), Ok(()));
    /// assert_eq!(cache.discard().file().get_ref(), b"zeroone.two.");
    /// ```
    pub fn discard(self) -> D {
        self.cache.discard().0
    }
}

/// Makes a cache as [`PageCache::new`] does, lends it to a closure, and closes it at the end. Returns what the closure
/// returned, and the device; or, if the last flush failed, the cache as [`PageCache::close`] returns it.
///
/// If the closure panics, the cache is dropped, and its dirty pages are lost.
///
/// ```
/// use jeerdurian::caches::{FileDevice, with_cache};
///
/// let file = std::io::Cursor::new(*b"zeroone.two.");
/// let (read, closed) = with_cache(FileDevice::<_, 4>::new(file, 3), 2, |cache| {
///     cache.write(1, *b"uno.")?;
///     cache.read(2)
/// });
/// assert_eq!(read, Ok(*b"two."));
/// assert_eq!(closed.ok().unwrap().file().get_ref(), b"zerouno.two.");
/// ```
#[cfg(feature = "runtime-rng")]
#[allow(clippy::type_complexity)]
pub fn with_cache<B: Copy, D: BlockDevice<B>, R>(
    device: D,
    capacity: usize,
    work: impl FnOnce(&mut PageCache<B, D>) -> R,
) -> (R, Result<D, Unclosed<B, D>>) {
    let mut cache = PageCache::new(device, capacity);
    let done = work(&mut cache);
    (done, cache.close())
}

/// A cache that was not closed, because its flush failed.
///
/// ```
/// # use jeerdurian::caches::{FileDevice, PageCache};
/// # let file = std::io::Cursor::new(*b"zeroone.two.");
/// # let mut cache = PageCache::new(FileDevice::<_, 4>::new(file, 3), 2);
/// assert_eq!(cache.write(1, *b"uno."), Ok(()));
/// let device = match cache.close() { // or `cache.close()?`
///     Ok(device) => device,
///     Err(unclosed) => {
///         println!("{}", unclosed.error);
///         unclosed.cache.discard()
///     }
/// };
/// assert_eq!(device.len(), 3);
/// ```
pub struct Unclosed<B: Copy, D: BlockDevice<B>, S = RandomState> {
    /// The cache, with the same pages.
    pub cache: PageCache<B, D, S>,
    /// Why the flush failed.
    pub error: PageError<D::Error>,
}

impl<B: Copy, D: BlockDevice<B, Error: Display>, S> Display for Unclosed<B, D, S> {
    fn fmt(&self, f: &mut Formatter<'_>) -> fmt::Result {
        write!(f, "the cache is not closed: {}", self.error)
    }
}

impl<B: Copy, D: BlockDevice<B, Error: Error>, S> Error for Unclosed<B, D, S> {}

impl<E: Eq> Eq for PageError<E> {}
