// Erased from crates/lru_trace/src/delete_curve.rt: do not edit.
//! `DeleteCurve`.

#[allow(unused_imports)]
use crate::rattle_std::prelude::*;

use crate::erased::lru_trace::places::Places;
use crate::rattle_std::alloc::{AllocError, Global};
use crate::rattle_std::collections::HashMap;

/// The misses of a trace in LRU caches of every size, counted in one pass. The trace may also delete keys.
///
/// A delete removes its key from each cache that contains the key. The memory is in proportion to the largest number of
/// keys that an unlimited cache contained at once. This number is at most 2 ^ 32 - 1.

pub struct DeleteCurve {
    numbers: HashMap<String, usize>,
    places: Places,
    counts: Vec<u64>,
    references: u64,
    alloc: Global,
}

impl DeleteCurve {
    /// Makes a curve without references.
    pub fn new(alloc: Global) -> Result<Self, AllocError> {
        Ok(DeleteCurve {
            numbers: HashMap::new(alloc),
            places: Places::new(alloc)?,
            counts: Vec::new(alloc),
            references: 0,
            alloc,
        })
    }

    fn make_count(&mut self) -> Result<(), AllocError> {
        if self.counts.len() == self.places.len() {
            self.counts.push(0)?;
        }
        Ok(())
    }

    fn number_of(&self, key: &str) -> Option<usize> {
        self.numbers.get(key).copied()
    }

    fn newer(&self, own: Option<usize>) -> Option<u64> {
        match own {
            Some(number) => Some(self.places.place_of(number)),
            None => None,
        }
    }

    /// Returns how many places were newer than the place of the key, or `None` for a new key.
    fn place(&mut self, key: &str) -> Result<Option<u64>, AllocError> {
        let own = self.number_of(key);
        let place = self.newer(own);
        let name = String::from_str(self.alloc, key)?;
        self.numbers.reserve(1)?;
        let number = self.places.refer(own)?;
        let Ok(_) = self.numbers.insert(name, number) else {
            return Err(AllocError);
        };
        Ok(place)
    }

    fn count(&mut self, place: Option<u64>) {
        if let Some(place) = place {
            (*at_mut!(self.counts, place as usize)) += 1;
        }
        self.references += 1;
    }

    /// References a key without counting the reference. Call `warm_up` before the first `refer`.
    ///
    /// Cost: as `refer`.
    ///
    /// # Errors
    ///
    /// Out of memory, or too many keys. The key was not referenced.
    pub fn warm_up(&mut self, key: &str) -> Result<(), AllocError> {
        self.make_count()?;
        self.place(key)?;
        Ok(())
    }

    /// References a key, and counts the reference.
    ///
    /// Cost: `O(log n)` expected for n places, amortised over the references.
    ///
    /// # Errors
    ///
    /// Out of memory, or too many keys. The reference is not counted.
    pub fn refer(&mut self, key: &str) -> Result<(), AllocError> {
        self.make_count()?;
        let place = self.place(key)?;
        self.count(place);
        Ok(())
    }

    /// Deletes a key, if it is there.
    ///
    /// Cost: `O(log n)` expected for n places.
    ///
    /// # Errors
    ///
    /// Out of memory. The key was not deleted.
    pub fn delete(&mut self, key: &str) -> Result<(), AllocError> {
        let Some(number) = self.numbers.get(key).copied() else {
            return Ok(());
        };
        self.places.free(number)?;
        self.numbers.remove(key);
        Ok(())
    }

    /// Returns how many references were counted.
    pub fn references(&self) -> u64 {
        self.references
    }

    /// Returns the largest number of keys that an unlimited cache contained at once.
    pub fn places(&self) -> usize {
        self.places.len()
    }

    /// Returns how many counted references miss in an LRU cache of `places` places.
    ///
    /// Cost: in proportion to the smaller of `places` and the number of places.
    pub fn misses(&self, places: usize) -> u64 {
        let mut misses = self.references;
        let places = places.min(self.counts.len());
        for count in &(*at!(self.counts, ..places)) {
            misses -= *count;
        }
        misses
    }
}
