//! The misses of the best possible policies.

use crate::erased::lru_trace as proved;

/// The misses of the best possible policies, which know the rest of the trace.
///
/// [`Curve::best`](super::Curve::best) returns it. It takes 8 bytes for each reference. Its calls abort the program if
/// memory runs out, as Rust's `BTreeSet` does.
///
/// ```
/// use jeerdurian::trace::Curve;
///
/// # fn main() -> Result<(), jeerdurian::AllocError> {
/// let mut curve = Curve::keeping_references()?;
/// for key in ["a", "b", "c", "a", "b", "c"] {
///     curve.refer(key)?;
/// }
/// let best = curve.best()?.expect("the references are kept");
/// assert_eq!((curve.misses(2), best.min_misses(2), best.bypass_misses(2)), (6, 4, 4));
/// # Ok(())
/// # }
/// ```
pub struct Best(pub(super) proved::Best);

// Why these calls return no error.
const ABORTS: &str = "Rust's sorted set aborts if memory runs out";

impl Best {
    /// Returns how often MIN misses in this many places. MIN stores each referenced key, and evicts the key whose next
    /// reference comes last.
    ///
    /// Proved: no policy that stores each referenced key misses less often.
    ///
    /// Cost: for n places, `O(log n)` for each reference. The memory is in proportion to the smaller of n and the
    /// number of keys.
    ///
    /// ```
    /// # use jeerdurian::trace::Curve;
    /// # let best = Curve::keeping_references()?.best()?.expect("the references are kept");
    /// assert_eq!(best.min_misses(2), 0);
    /// # Ok::<(), jeerdurian::AllocError>(())
    /// ```
    pub fn min_misses(&self, places: usize) -> u64 {
        self.0.min_misses(places).expect(ABORTS) as u64
    }

    /// Returns how often MIN with bypass misses in this many places. This policy need not store a referenced key.
    ///
    /// Proved: no policy misses less often.
    ///
    /// Cost: as `min_misses`.
    ///
    /// ```
    /// # use jeerdurian::trace::Curve;
    /// # let best = Curve::keeping_references()?.best()?.expect("the references are kept");
    /// assert_eq!(best.bypass_misses(2), 0);
    /// # Ok::<(), jeerdurian::AllocError>(())
    /// ```
    pub fn bypass_misses(&self, places: usize) -> u64 {
        self.0.bypass_misses(places).expect(ABORTS) as u64
    }
}
