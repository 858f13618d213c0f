// Erased from crates/lru_trace/src/options.rt: do not edit.
#[allow(unused_imports)]
use crate::rattle_std::prelude::*;

/// The form of the report.
#[derive(Clone, Copy, Debug, PartialEq, Eq)]
pub enum Form {
    /// For people: a line for each named size, and bars.
    Text,
    /// For programs: a header line, and a record for each size.
    Csv,
    /// A picture of the curves.
    Svg,
}

/// A column of a line: the bytes behind the first `index` separators, up to the next separator.
#[derive(Clone, Copy, Debug, PartialEq, Eq)]
pub struct Column {
    /// The number of columns before this column.
    pub index: usize,
    /// The byte between two columns.
    pub separator: u8,
}

/// The unit of a cache's size: entries or bytes.
#[derive(Clone, Copy, Debug, PartialEq, Eq)]
pub enum Measure {
    /// The size is the number of entries that the cache can contain.
    Places,
    /// As `Places`, but the trace also deletes keys.
    PlacesWithDeletes,
    /// The size is the number of bytes that all entries can take together.
    Bytes,
}

/// The policies whose misses are counted.
#[derive(Clone, Copy, Debug, PartialEq, Eq)]
pub enum Policies {
    /// LRU. The first `warm_up` references fill the caches, and are not counted.
    Lru {
        /// The number of references in the warm-up.
        warm_up: u64,
    },
    /// As `Lru`. A line that begins with a minus and a space deletes its key.
    Deletes {
        /// The number of references in the warm-up.
        warm_up: u64,
    },
    /// LRU and the best possible policies. All caches begin with no keys.
    Best,
    /// LRU with limits of bytes, after a warm-up. The column `size` says how many bytes an entry takes.
    Sized {
        /// The number of references in the warm-up.
        warm_up: u64,
        /// The column of the sizes.
        size: Column,
    },
}

/// What `trace` reads and writes.
#[derive(Clone, Copy, Debug, PartialEq, Eq)]
pub struct Options {
    /// The column that contains the key. Without a column the whole line is the key.
    pub column: Option<Column>,
    /// The form of the report.
    pub form: Form,
    /// The policies whose misses are counted.
    pub policies: Policies,
    /// A key is referenced only if the lowest `sample` bits of its hash are zero. A number above 20 means 20.
    pub sample: u32,
}

impl Options {
    pub(crate) fn bits(self) -> u32 {
        self.sample.min(20)
    }
}

impl Policies {
    pub(crate) fn warm_up(self) -> u64 {
        match self {
            Policies::Lru { warm_up } | Policies::Deletes { warm_up } | Policies::Sized { warm_up, .. } => warm_up,
            Policies::Best => 0,
        }
    }

    pub(crate) fn best(self) -> bool {
        match self {
            Policies::Lru { .. } | Policies::Deletes { .. } | Policies::Sized { .. } => false,
            Policies::Best => true,
        }
    }

    pub(crate) fn measure(self) -> Measure {
        match self {
            Policies::Lru { .. } | Policies::Best => Measure::Places,
            Policies::Deletes { .. } => Measure::PlacesWithDeletes,
            Policies::Sized { .. } => Measure::Bytes,
        }
    }
}
