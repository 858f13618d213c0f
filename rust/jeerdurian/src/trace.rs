//! Miss-ratio curves: how often LRU caches of every size miss on a trace of keys, counted in one pass.
//!
//! ```
//! use jeerdurian::trace::Curve;
//!
//! # fn main() -> Result<(), jeerdurian::AllocError> {
//! let mut curve = Curve::new()?;
//! for key in ["a", "b", "a", "c", "a"] {
//!     curve.refer(key)?;
//! }
//! assert_eq!((curve.misses(1), curve.misses(2), curve.references()), (5, 3, 5));
//! # Ok(())
//! # }
//! ```

mod best;
mod byte_curve;
mod delete_curve;

pub use best::Best;
pub use byte_curve::{ByteCurve, SizeError};
pub use delete_curve::DeleteCurve;

use crate::erased::lru_trace as proved;
use crate::rattle_std::alloc::{AllocError, Global};
use crate::rattle_std::vec::Vec;
use std::io::{BufRead, Sink, Write};

/// The form of the output for a trace.
///
/// ```
/// use jeerdurian::trace::Form;
///
/// assert_ne!(Form::Csv, Form::Svg);
/// ```
pub use crate::erased::lru_trace::Form;

/// A column of each line, and the byte that separates columns.
///
/// ```
/// use jeerdurian::trace::Column;
///
/// let third = Column { index: 2, separator: b',' };
/// assert_eq!(third.index, 2);
/// ```
pub use crate::erased::lru_trace::Column;

/// What a trace reads and writes.
///
/// ```
/// use jeerdurian::trace::{Form, Options, Policies};
///
/// let options = Options { form: Form::Svg, policies: Policies::Best, ..Options::default() };
/// assert_eq!(options.column, None);
/// ```
pub use crate::erased::lru_trace::Options;

impl Default for Options {
    /// Returns the options of [`report`]: the whole line is the key, the form is `Text`, the policy is LRU without a
    /// warm-up, and no key is left out.
    fn default() -> Self {
        text_of(LRU)
    }
}

/// Which misses are counted: those of LRU after a warm-up (with limits of entries, with or without deletes, or with
/// limits of bytes), or those of LRU and of the best possible policies.
///
/// ```
/// use jeerdurian::trace::Policies;
///
/// assert_ne!(Policies::Best, Policies::Lru { warm_up: 1000 });
/// ```
pub use crate::erased::lru_trace::Policies;

/// How a trace ended if no read and no write failed.
///
/// ```
/// use jeerdurian::trace::{TraceEnd, report};
///
/// assert_eq!(report(b"no sizes".as_slice(), std::io::sink()), Ok(TraceEnd::NoSizes));
/// ```
pub use crate::erased::lru_trace::TraceEnd;

/// Why a trace was cut off.
///
/// ```
/// use jeerdurian::trace::TraceError;
///
/// assert_eq!(TraceError::Write.to_string(), "write failed");
/// ```
pub use crate::erased::lru_trace::TraceError;

impl core::error::Error for TraceError {}

/// The misses of a trace in LRU caches of every size, counted in one pass.
///
/// Its memory is in proportion to the number of keys, not to the length of the trace, unless it keeps the references.
///
/// Proved: `misses(n)` returns how often a cache of n places misses, for traces of at most 2^64 - 1 references.
///
/// ```
/// use jeerdurian::trace::Curve;
///
/// # fn main() -> Result<(), jeerdurian::AllocError> {
/// let mut curve = Curve::new()?;
/// for key in ["a", "b", "a", "c", "a"] {
///     curve.refer(key)?;
/// }
/// assert_eq!((curve.misses(0), curve.misses(1), curve.misses(2)), (5, 5, 3));
/// # Ok(())
/// # }
/// ```
pub struct Curve(proved::Curve);

impl Curve {
    /// Makes the curve of a trace without references.
    ///
    /// # Errors
    ///
    /// Out of memory.
    ///
    /// ```
    /// # use jeerdurian::trace::Curve;
    /// assert_eq!(Curve::new()?.references(), 0);
    /// # Ok::<(), jeerdurian::AllocError>(())
    /// ```
    pub fn new() -> Result<Self, AllocError> {
        Ok(Curve(proved::Curve::new(Global)?))
    }

    /// Makes a curve as `new` does, which keeps the references (8 bytes each), so that `best` can look ahead.
    ///
    /// # Errors
    ///
    /// Out of memory.
    ///
    /// ```
    /// # use jeerdurian::trace::Curve;
    /// assert!(Curve::keeping_references()?.best()?.is_some() && Curve::new()?.best()?.is_none());
    /// # Ok::<(), jeerdurian::AllocError>(())
    /// ```
    pub fn keeping_references() -> Result<Self, AllocError> {
        Ok(Curve(proved::Curve::keeping_references(Global)?))
    }

    /// Looks ahead in the trace, for the best possible policies. Returns `None` if the curve does not keep the
    /// references. Cost: in proportion to the number of references.
    ///
    /// # Errors
    ///
    /// Out of memory.
    ///
    /// ```
    /// # use jeerdurian::trace::Curve;
    /// assert!(Curve::new()?.best()?.is_none());
    /// # Ok::<(), jeerdurian::AllocError>(())
    /// ```
    pub fn best(&self) -> Result<Option<Best>, AllocError> {
        Ok(self.0.best()?.map(Best))
    }

    /// Makes the curve of the keys of a reader, one in each line. Returns the curve and the number of lines that are no
    /// key: a key is text of 1 to 64 bytes.
    ///
    /// # Errors
    ///
    /// `Read`: a read failed. `Memory`: out of memory, or more than 2^32 - 1 keys.
    ///
    /// ```
    /// # use jeerdurian::trace::Curve;
    /// let (curve, malformed) = Curve::from_lines(b"a\nb\n\na\n".as_slice())?;
    /// assert_eq!((curve.references(), curve.keys(), malformed), (3, 2, 1));
    /// # Ok::<(), jeerdurian::trace::TraceError>(())
    /// ```
    pub fn from_lines(mut reader: impl BufRead) -> Result<(Self, u64), TraceError> {
        let mut curve = proved::AnyCurve::Places(proved::Curve::new(Global)?);
        let lines = &mut Vec::new(Global);
        let others = proved::read_keys(&mut reader, lines, text_of(LRU), &mut curve, &mut no_progress())?;
        match curve {
            proved::AnyCurve::Places(curve) => Ok((Curve(curve), others.malformed)),
            proved::AnyCurve::Deletes(_) | proved::AnyCurve::Bytes(_) => unreachable!("a curve keeps its measure"),
        }
    }

    /// References a key.
    ///
    /// Cost: `O(log n)` expected for n keys, amortised over the references.
    ///
    /// # Errors
    ///
    /// Out of memory, or more than 2^32 - 1 keys. The reference is not counted then.
    ///
    /// ```
    /// # use jeerdurian::trace::Curve;
    /// let mut curve = Curve::new()?;
    /// curve.refer("a")?;
    /// assert_eq!(curve.references(), 1);
    /// # Ok::<(), jeerdurian::AllocError>(())
    /// ```
    pub fn refer(&mut self, key: &str) -> Result<(), AllocError> {
        self.0.refer(key)
    }

    /// References a key without counting the reference. Call this before the first `refer`. [`Best`] leaves these
    /// references out: its caches begin with no keys.
    ///
    /// Cost: as `refer`.
    ///
    /// # Errors
    ///
    /// As for `refer`.
    ///
    /// ```
    /// # use jeerdurian::trace::Curve;
    /// let mut curve = Curve::new()?;
    /// curve.warm_up("a")?;
    /// curve.refer("a")?;
    /// assert_eq!((curve.references(), curve.misses(1), curve.keys()), (1, 0, 1));
    /// # Ok::<(), jeerdurian::AllocError>(())
    /// ```
    pub fn warm_up(&mut self, key: &str) -> Result<(), AllocError> {
        self.0.warm_up(key)
    }

    /// Returns the number of counted references. Cost: `O(1)`.
    ///
    /// ```
    /// # use jeerdurian::trace::Curve;
    /// let (curve, _) = Curve::from_lines(b"a\nb\na\n".as_slice())?;
    /// assert_eq!(curve.references(), 3);
    /// # Ok::<(), jeerdurian::trace::TraceError>(())
    /// ```
    pub fn references(&self) -> u64 {
        self.0.references()
    }

    /// Returns the number of keys that were referenced, including the keys of the warm-up. Cost: `O(1)`.
    ///
    /// ```
    /// # use jeerdurian::trace::Curve;
    /// let (curve, _) = Curve::from_lines(b"a\nb\na\n".as_slice())?;
    /// assert_eq!(curve.keys(), 2);
    /// # Ok::<(), jeerdurian::trace::TraceError>(())
    /// ```
    pub fn keys(&self) -> usize {
        self.0.keys()
    }

    /// Returns the number of references that miss in an LRU cache of this many places.
    ///
    /// Cost: `O(places)`, and at most in proportion to the number of keys.
    ///
    /// ```
    /// # use jeerdurian::trace::Curve;
    /// let (curve, _) = Curve::from_lines(b"a\nb\na\n".as_slice())?;
    /// assert_eq!((curve.misses(1), curve.misses(2)), (3, 2));
    /// # Ok::<(), jeerdurian::trace::TraceError>(())
    /// ```
    pub fn misses(&self, places: usize) -> u64 {
        self.0.misses(places)
    }
}

const LRU: Policies = Policies::Lru { warm_up: 0 };

fn text_of(policies: Policies) -> Options {
    Options { column: None, form: Form::Text, policies, sample: 0 }
}

/// Reads a trace, and writes how often LRU caches of each size miss, with a chart.
///
/// The first line names sizes, and each other line is a referenced key: text of 1 to 64 bytes. Other lines are counted
/// as malformed.
///
/// # Errors
///
/// `Read`: a read failed. `Write`: a write or the flush failed. `Memory`: out of memory, or more than 2^32 - 1 keys.
///
/// ```
/// use jeerdurian::trace::{TraceEnd, report};
///
/// let mut text = Vec::new();
/// assert_eq!(report(b"2\na\nb\na\n".as_slice(), &mut text), Ok(TraceEnd::Done));
/// assert!(text.starts_with(b"references 3 keys 2 malformed 0\nplaces 2 hits 1 misses 2 ratio 0.6666\n"));
/// ```
pub fn report(mut reader: impl BufRead, mut writer: impl Write) -> Result<TraceEnd, TraceError> {
    proved::trace(Global, text_of(LRU), &mut reader, &mut writer, &mut no_progress())
}

/// Does what `report` does, and also writes how often the best possible policies miss at each named size. Takes 16 to
/// 32 bytes more for each reference.
///
/// # Errors
///
/// As for `report`, but if memory runs out for the misses of these policies, the program aborts.
///
/// ```
/// use jeerdurian::trace::{TraceEnd, report_with_best};
///
/// let mut text = Vec::new();
/// assert_eq!(report_with_best(b"2\na\nb\nc\na\n".as_slice(), &mut text), Ok(TraceEnd::Done));
/// assert!(text.starts_with(b"references 4 keys 3 malformed 0\nplaces 2 hits 0 misses 4 ratio 1.0000 min 3 bypass 3\n"));
/// ```
pub fn report_with_best(mut reader: impl BufRead, mut writer: impl Write) -> Result<TraceEnd, TraceError> {
    proved::trace(Global, text_of(Policies::Best), &mut reader, &mut writer, &mut no_progress())
}

/// Does what `report` does, with options: for a column of the lines, for a sample of the keys, after a warm-up, for a
/// trace that also deletes keys, with limits of bytes, or with the best possible policies; as text, csv or an svg
/// picture.
///
/// # Errors
///
/// As for `report`, and with `Policies::Best` as for `report_with_best`. `TooLarge`: the sizes of all keys sum to 2^64
/// or more.
///
/// ```
/// use jeerdurian::trace::{Column, Form, Options, Policies, TraceEnd, report_as};
///
/// let column = Some(Column { index: 1, separator: b',' });
/// let options = Options { column, form: Form::Csv, policies: Policies::Best, sample: 0 };
/// let mut csv = Vec::new();
/// assert_eq!(report_as(options, b"2\n1,a\n2,b\n3,c\n4,a\n".as_slice(), &mut csv), Ok(TraceEnd::Done));
/// assert!(csv.starts_with(b"size,hits,misses,ratio,min,bypass\n1,0,4,1.0000,4,3\n2,0,4,1.0000,3,3\n"));
///
/// let size = Column { index: 0, separator: b',' };
/// let options = Options { policies: Policies::Sized { warm_up: 0, size }, form: Form::Text, ..options };
/// let mut text = Vec::new();
/// assert_eq!(report_as(options, b"30\n10,a\n20,b\n10,a\n".as_slice(), &mut text), Ok(TraceEnd::Done));
/// assert!(text.starts_with(b"references 3 keys 2 malformed 0\nbytes 30 hits 1 misses 2 ratio 0.6666\n"));
/// ```
pub fn report_as(options: Options, mut reader: impl BufRead, mut writer: impl Write) -> Result<TraceEnd, TraceError> {
    proved::trace(Global, options, &mut reader, &mut writer, &mut no_progress())
}

fn no_progress() -> proved::Progress<Sink> {
    proved::Progress::new(Global, None)
}
