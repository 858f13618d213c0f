// Erased from crates/lru_trace/src/curve.rt: do not edit.
//! `Curve`.

#[allow(unused_imports)]
use crate::rattle_std::prelude::*;

use crate::erased::lru_trace::best::Best;
use crate::erased::lru_trace::distances::Distances;
use crate::erased::lru_trace::names::Names;
use crate::rattle_std::alloc::{AllocError, Global};

/// The misses of a trace in LRU caches of every size, counted in one pass.
///
/// A reference misses in a cache of n places if it is the first reference to its key, or if its reuse distance is at
/// least n. If the curve does not keep the references, its memory is in proportion to the number of keys. A curve has at
/// most 2 ^ 32 - 1 keys.

pub struct Curve {
    names: Names,
    distances: Distances,
    counts: Vec<u64>,
    firsts: usize,
    references: u64,
    kept: Option<Vec<usize>>,
    alloc: Global,
}

impl Curve {
    /// Makes a curve without references.
    pub fn new(alloc: Global) -> Result<Self, AllocError> {
        Curve::make(alloc, None)
    }

    /// Makes a curve that also keeps the references, for `best`. Each reference takes 8 bytes.
    pub fn keeping_references(alloc: Global) -> Result<Self, AllocError> {
        Curve::make(alloc, Some(Vec::new(alloc)))
    }

    fn make(alloc: Global, kept: Option<Vec<usize>>) -> Result<Self, AllocError> {
        Ok(Curve {
            names: Names::new(alloc)?,
            distances: Distances::new(alloc)?,
            counts: Vec::new(alloc),
            firsts: 0,
            references: 0,
            kept,
            alloc,
        })
    }

    fn number_of(&mut self, key: &str) -> Result<usize, AllocError> {
        if let Some(number) = self.names.find(key) {
            return Ok(number);
        }
        let number = self.distances.add_key()?;
        match self.names.add(key) {
            Ok(()) => Ok(number),
            Err(error) => {
                self.distances.remove_key();
                Err(error)
            }
        }
    }

    fn make_count(&mut self) -> Result<(), AllocError> {
        if self.counts.len() == self.firsts {
            self.counts.push(0)?;
        }
        Ok(())
    }

    fn keep(&mut self, number: usize) -> Result<(), AllocError> {
        if let Some(kept) = &mut self.kept {
            kept.push(number)?;
        }
        Ok(())
    }

    fn forget(&mut self) {
        if let Some(kept) = &mut self.kept {
            kept.pop();
        }
    }

    fn count(&mut self, key: &str, number: usize) -> Result<(), AllocError> {
        match self.distances.refer(number)? {
            Some(distance) => (*at_mut!(self.counts, distance as usize)) += 1,
            None => self.firsts += 1,
        }
        self.references += 1;
        Ok(())
    }

    fn place(&mut self, number: usize) -> Result<(), AllocError> {
        if self.distances.refer(number)?.is_none() {
            self.firsts += 1;
        }
        Ok(())
    }

    /// References a key without counting the reference. Call `warm_up` before the first `refer`.
    ///
    /// Cost: as `refer`.
    ///
    /// # Errors
    ///
    /// Out of memory, or too many keys. The key was not referenced.
    pub fn warm_up(&mut self, key: &str) -> Result<(), AllocError> {
        let number = self.number_of(key)?;
        self.make_count()?;
        self.place(number)
    }

    /// References a key, and counts the reference.
    ///
    /// Cost: `O(log n)` expected for n keys, amortised over the references.
    ///
    /// # Errors
    ///
    /// Out of memory, or too many keys. The reference is not counted.
    pub fn refer(&mut self, key: &str) -> Result<(), AllocError> {
        let number = self.number_of(key)?;
        self.make_count()?;
        self.keep(number)?;
        match self.count(key, number) {
            Ok(()) => Ok(()),
            Err(error) => {
                self.forget();
                Err(error)
            }
        }
    }

    /// Returns the `Best` of the trace. If the curve does not keep the references, returns `None`.
    ///
    /// Cost: in proportion to the number of references.
    ///
    /// # Errors
    ///
    /// Out of memory.
    pub fn best(&self) -> Result<Option<Best>, AllocError> {
        match &self.kept {
            Some(kept) => Ok(Some(Best::new(self.alloc, kept)?)),
            None => Ok(None),
        }
    }

    /// Returns how many references were counted.
    pub fn references(&self) -> u64 {
        self.references
    }

    /// Returns how many different keys were referenced, including in the warm-up.
    pub fn keys(&self) -> usize {
        self.firsts
    }

    /// Returns how many counted references miss in an LRU cache of `places` places.
    ///
    /// Cost: in proportion to the smaller of `places` and the number of keys.
    pub fn misses(&self, places: usize) -> u64 {
        let mut misses = self.references;
        let places = places.min(self.counts.len());
        for count in &(*at!(self.counts, ..places)) {
            misses -= *count;
        }
        misses
    }
}
