//! Miss-ratio curves of limits in bytes.

use crate::erased::lru_trace as proved;
use crate::rattle_std::alloc::{AllocError, Global};
use crate::rattle_std::vec::Vec;

/// Why a [`ByteCurve`] did not make a reference: out of memory, more than 2^32 - 1 keys, or the sizes of all keys
/// would sum to 2^64 or more.
///
/// ```
/// assert_eq!(jeerdurian::trace::SizeError::Memory.to_string(), "out of memory");
/// ```
pub use crate::erased::lru_trace::SizeError;

impl core::error::Error for SizeError {}

/// How often LRU caches with limits of bytes miss on a trace, counted in one pass.
///
/// A key keeps the size of its first reference. A cache with a limit of n bytes contains the newest keys that together
/// take at most n bytes. So a key of more than n bytes empties this cache, and a map under [`ByCost`](crate::ByCost)
/// rejects the key. Proved: each count is exact.
///
/// ```
/// use jeerdurian::trace::ByteCurve;
///
/// let mut curve = ByteCurve::new(&[10, 30]).unwrap();
/// for (key, bytes) in [("a", 10), ("b", 20), ("a", 10), ("a", 10)] {
///     curve.refer(key, bytes).unwrap();
/// }
/// assert_eq!((curve.misses(10), curve.misses(30), curve.misses(20)), (Some(3), Some(2), None));
/// ```
pub struct ByteCurve(proved::ByteCurve);

impl ByteCurve {
    /// Makes the curve of a trace without references, for these limits.
    ///
    /// # Errors
    ///
    /// Out of memory.
    pub fn new(limits: &[u64]) -> Result<Self, AllocError> {
        Ok(ByteCurve(proved::ByteCurve::new(Global, Vec::from_slice(Global, limits)?)?))
    }

    /// References a key of this many bytes. Cost: `O(log n)` expected for n keys, and `O(limits)`.
    ///
    /// # Errors
    ///
    /// As [`SizeError`] says. The reference is not counted then.
    pub fn refer(&mut self, key: &str, bytes: u64) -> Result<(), SizeError> {
        self.0.refer(key, bytes)
    }

    /// References a key without counting the reference. Call this before the first `refer`. Cost: as `refer`.
    ///
    /// # Errors
    ///
    /// As for `refer`.
    pub fn warm_up(&mut self, key: &str, bytes: u64) -> Result<(), SizeError> {
        self.0.warm_up(key, bytes)
    }

    /// Returns the number of counted references. Cost: `O(1)`.
    pub fn references(&self) -> u64 {
        self.0.references()
    }

    /// Returns the number of different keys, including the keys of the warm-up. Cost: `O(1)`.
    pub fn keys(&self) -> usize {
        self.0.keys()
    }

    /// Returns how many bytes all keys take together, including the keys of the warm-up. Cost: `O(1)`.
    pub fn bytes(&self) -> u64 {
        self.0.bytes()
    }

    /// Returns how many counted references miss in an LRU cache with this limit. `None` if `new` did not get the limit.
    /// Cost: in proportion to the number of limits.
    pub fn misses(&self, limit: u64) -> Option<u64> {
        self.0.misses(limit)
    }
}
