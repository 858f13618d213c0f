// Erased from crates/lru_trace/src/byte_curve.rt: do not edit.
//! `ByteCurve`.

#[allow(unused_imports)]
use crate::rattle_std::prelude::*;

use crate::erased::lru_trace::distances::Distances;
use crate::erased::lru_trace::names::Names;
use crate::rattle_std::alloc::{AllocError, Global};

/// Why a reference was not made.
#[derive(Clone, Copy, Debug, PartialEq, Eq)]
pub enum SizeError {
    /// Memory ran out, or there are too many keys.
    Memory,
    /// The sizes of all keys would sum to 2 ^ 64 or more.
    TooLarge,
}

impl ::core::fmt::Display for SizeError {
    fn fmt(&self, f: &mut ::core::fmt::Formatter<'_>) -> ::core::fmt::Result {
        match self {
            SizeError::Memory => write!(f, "out of memory"),
            SizeError::TooLarge => write!(f, "the sizes of the keys are too large"),
        }
    }
}

impl From<AllocError> for SizeError {
    fn from(_: AllocError) -> Self {
        SizeError::Memory
    }
}

/// The misses of a trace in LRU caches with limits of bytes, counted in one pass.
///
/// The need of a reference is the size of its key, plus the sizes of the other keys that were referenced since the last
/// reference to this key. A reference misses if it is the first reference to its key, or if its need is above the
/// limit. The first reference to a key gives the size of the key. The memory is in proportion to the number of keys and
/// of limits. A curve has at most 2 ^ 32 - 1 keys.

pub struct ByteCurve {
    names: Names,
    distances: Distances,
    limits: Vec<u64>,
    counts: Vec<u64>,
    references: u64,
    total: u64,
}

fn count_of(limits: &[u64], need: Option<u64>) -> usize {
    if let Some(need) = need {
        for i in 0..limits.len() {
            if need <= (*at!(limits, i)) {
                return i;
            }
        }
    }
    limits.len()
}

impl ByteCurve {
    /// Makes a curve without references, for these limits.
    ///
    /// # Errors
    ///
    /// Out of memory.
    pub fn new(alloc: Global, limits: Vec<u64>) -> Result<Self, AllocError> {
        let mut limits = limits;
        limits.sort_unstable();
        let counts = vec![in alloc; 0; limits.len() + 1]?;
        Ok(ByteCurve {
            names: Names::new(alloc)?,
            distances: Distances::new(alloc)?,
            limits,
            counts,
            references: 0,
            total: 0,
        })
    }

    fn find(&mut self, number: usize) -> Result<Option<u64>, AllocError> {
        let size = self.distances.weight(number);
        match self.distances.refer(number)? {
            Some(behind) => Ok(Some(size + behind)),
            None => Ok(None),
        }
    }

    fn add(&mut self, key: &str, bytes: u64) -> Result<(), SizeError> {
        let Some(total) = self.total.checked_add(bytes) else {
            return Err(SizeError::TooLarge);
        };
        self.distances.reserve()?;
        let number = self.distances.add_weighed_key(bytes)?;
        if self.names.add(key).is_err() {
            self.distances.remove_key();
            return Err(SizeError::Memory);
        }
        self.distances.refer(number)?;
        self.total = total;
        Ok(())
    }

    fn make(&mut self, key: &str, bytes: u64) -> Result<Option<u64>, SizeError> {
        if let Some(number) = self.names.find(key) {
            return Ok(self.find(number)?);
        }
        self.add(key, bytes)?;
        Ok(None)
    }

    fn count(&mut self, need: Option<u64>) {
        let at = count_of(&self.limits, need);
        (*at_mut!(self.counts, at)) += 1;
        self.references += 1;
    }

    /// References a key without counting the reference. Call `warm_up` before the first `refer`.
    ///
    /// Cost: as `refer`.
    ///
    /// # Errors
    ///
    /// As `refer`. The key was not referenced.
    pub fn warm_up(&mut self, key: &str, bytes: u64) -> Result<(), SizeError> {
        self.make(key, bytes)?;
        Ok(())
    }

    /// References a key, and counts the reference. If the key was referenced before, ignores `bytes`.
    ///
    /// Cost: `O(log n + m)` expected for n keys and m limits, amortised over the references.
    ///
    /// # Errors
    ///
    /// After an error, the reference is not counted.
    pub fn refer(&mut self, key: &str, bytes: u64) -> Result<(), SizeError> {
        let need = self.make(key, bytes)?;
        self.count(need);
        Ok(())
    }

    /// Returns how many references were counted.
    pub fn references(&self) -> u64 {
        self.references
    }

    /// Returns how many different keys were referenced, including in the warm-up.
    pub fn keys(&self) -> usize {
        self.distances.referenced()
    }

    /// Returns the sum of the sizes of all referenced keys, including the keys of the warm-up.
    pub fn bytes(&self) -> u64 {
        self.total
    }

    /// Returns how many counted references miss in an LRU cache with this limit. If the curve does not have the limit,
    /// returns `None`.
    ///
    /// Cost: in proportion to the number of limits.
    pub fn misses(&self, limit: u64) -> Option<u64> {
        let mut misses = self.references;
        for i in 0..self.limits.len() {
            misses -= (*at!(self.counts, i));
            if (*at!(self.limits, i)) == limit {
                return Some(misses);
            }
        }
        None
    }
}
