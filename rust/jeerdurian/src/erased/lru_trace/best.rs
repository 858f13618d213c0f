// Erased from crates/lru_trace/src/best.rt: do not edit.
#[allow(unused_imports)]
use crate::rattle_std::prelude::*;

use crate::rattle_std::alloc::{AllocError, Global};
use crate::rattle_std::collections::BTreeSet;

/// Counts the misses of the best possible policies (`docs/THEORY.md`). For each reference of a trace, `Best` stores the
/// time of the next reference to the same key. If there is none, `Best` stores the length of the trace.
///
/// `Best` takes 8 bytes for each reference.

pub struct Best {
    nexts: Vec<usize>,
    alloc: Global,
}

impl Best {
    pub(crate) fn new(alloc: Global, numbers: &[usize]) -> Result<Self, AllocError> {
        let nexts = next_times(alloc, numbers)?;
        Ok(Best { nexts, alloc })
    }

    fn end(&self) -> usize {
        self.nexts.len()
    }

    fn next(&self, now: usize) -> usize {
        (*at!(self.nexts, now))
    }

    /// Returns the number of misses of MIN in a cache of `places` places that begins with no keys. If a policy with
    /// `places` places begins with no keys, stores each referenced key, and loads keys only on demand, it misses at
    /// least as often.
    ///
    /// Cost: for n places, `O(log n)` for each reference. The memory is in proportion to the smaller of n and the
    /// number of keys.
    ///
    /// # Errors
    ///
    /// Out of memory.
    pub fn min_misses(&self, places: usize) -> Result<usize, AllocError> {
        let end = self.end();
        if places == 0 {
            return Ok(end);
        }
        let mut times = BTreeSet::new(self.alloc);
        let mut misses = 0;
        for now in 0..end {
            misses += usize::from(!times.remove(&now));
            keep(&mut times, places - 1);
            add(&mut times, self.next(now), end)?;
        }
        Ok(misses)
    }

    /// Returns the number of misses of MIN with bypass in a cache of `places` places that begins with no keys. If a
    /// policy with `places` places begins with no keys and loads keys only on demand, it misses at least as often.
    ///
    /// Cost: as `min_misses`.
    ///
    /// # Errors
    ///
    /// Out of memory.
    pub fn bypass_misses(&self, places: usize) -> Result<usize, AllocError> {
        let end = self.end();
        let mut times = BTreeSet::new(self.alloc);
        let mut misses = 0;
        for now in 0..end {
            misses += usize::from(!times.remove(&now));
            add(&mut times, self.next(now), end)?;
            keep(&mut times, places);
        }
        Ok(misses)
    }
}

fn keep(times: &mut BTreeSet<usize>, n: usize) {
    if times.len() > n {
        times.pop_last();
    }
}

fn add(times: &mut BTreeSet<usize>, time: usize, end: usize) -> Result<(), AllocError> {
    if time >= end {
        return Ok(());
    }
    match times.insert(time) {
        Ok(_) => Ok(()),
        Err(_) => Err(AllocError),
    }
}

/// Fails if one of the numbers is `usize::MAX`.
fn bound_of(numbers: &[usize]) -> Result<usize, AllocError> {
    let mut bound = 0;
    for number in numbers {
        if *number == usize::MAX {
            return Err(AllocError);
        }
        bound = bound.max(*number + 1);
    }
    Ok(bound)
}

fn next_times(alloc: Global, numbers: &[usize]) -> Result<Vec<usize>, AllocError> {
    let end = numbers.len();
    let mut nexts = vec![in alloc; end; end]?;
    let mut seen = vec![in alloc; end; bound_of(numbers)?]?;
    for done in 0..end {
        let now = end - 1 - done;
        (*at_mut!(nexts, now)) = (*at!(seen, (*at!(numbers, now))));
        (*at_mut!(seen, (*at!(numbers, now)))) = now;
    }
    Ok(nexts)
}
