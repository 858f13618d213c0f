//! Miss-ratio curves of traces that also delete keys.

use crate::erased::lru_trace as proved;
use crate::rattle_std::alloc::{AllocError, Global};

/// How often LRU caches of every size miss on a trace that also deletes keys, counted in one pass.
///
/// A delete removes its key from each cache that contains the key. The memory is in proportion to the largest number of
/// keys that an unlimited cache contains at once. If memory runs out, a call may abort, as Rust's `BTreeMap` does.
///
/// Proved: `misses(n)` returns how often a cache of n places misses, for traces of at most 2^64 - 1 references.
///
/// ```
/// use jeerdurian::trace::DeleteCurve;
///
/// # fn main() -> Result<(), jeerdurian::AllocError> {
/// let mut curve = DeleteCurve::new()?;
/// curve.refer("a")?;
/// curve.delete("a")?;
/// curve.refer("a")?;
/// curve.refer("a")?;
/// assert_eq!((curve.references(), curve.misses(1), curve.places()), (3, 2, 1));
/// # Ok(())
/// # }
/// ```
pub struct DeleteCurve(proved::DeleteCurve);

impl DeleteCurve {
    /// Makes the curve of a trace without references.
    ///
    /// # Errors
    ///
    /// Out of memory.
    pub fn new() -> Result<Self, AllocError> {
        Ok(DeleteCurve(proved::DeleteCurve::new(Global)?))
    }

    /// References a key. Cost: `O(log n)` expected for n places, amortised over the references.
    ///
    /// # Errors
    ///
    /// Out of memory, or more than 2^32 - 1 keys at once. The reference is not counted then.
    pub fn refer(&mut self, key: &str) -> Result<(), AllocError> {
        self.0.refer(key)
    }

    /// References a key without counting the reference. Call this before the first `refer`. Cost: as `refer`.
    ///
    /// # Errors
    ///
    /// As for `refer`.
    pub fn warm_up(&mut self, key: &str) -> Result<(), AllocError> {
        self.0.warm_up(key)
    }

    /// Deletes a key, if it is there. A delete is no reference. Cost: `O(log n)` expected for n places.
    ///
    /// # Errors
    ///
    /// Out of memory. The key is still there then.
    pub fn delete(&mut self, key: &str) -> Result<(), AllocError> {
        self.0.delete(key)
    }

    /// Returns the number of counted references. Cost: `O(1)`.
    pub fn references(&self) -> u64 {
        self.0.references()
    }

    /// Returns the largest number of keys that an unlimited cache contained at once. Cost: `O(1)`.
    pub fn places(&self) -> usize {
        self.0.places()
    }

    /// Returns how many counted references miss in an LRU cache of this many places. Cost: `O(places)`, and at most in
    /// proportion to [`places`](Self::places).
    pub fn misses(&self, places: usize) -> u64 {
        self.0.misses(places)
    }
}
