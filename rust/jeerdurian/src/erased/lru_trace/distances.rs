// Erased from crates/lru_trace/src/distances.rt: do not edit.
//! Reuse distances of a trace, one reference at a time.

#[allow(unused_imports)]
use crate::rattle_std::prelude::*;

use crate::erased::lru_trace::tree::{BLOCK, Tree};
use crate::rattle_std::alloc::{AllocError, Global};
use crate::rattle_std::mem;

/// The slot of a key that was not referenced.
const NO_SLOT: usize = usize::MAX;

/// The content of a free slot.
const NO_KEY: u32 = u32::MAX;

/// The keys of a trace, by the time of their last reference.
///
/// A key is a number that `add_key` or `add_weighed_key` returned. Its weight is 1, or the weight that
/// `add_weighed_key` got.
///
/// Each reference writes its key to the next slot of a log, and frees the slot that its key had before. `blocks`
/// contains the weight of each block of slots. If the log is full, the keys move to the front of a new log, which is
/// about two thirds full. A key takes about 15 bytes, and 8 more if it has a weight.

pub struct Distances {
    log: Vec<u32>,
    slots: Vec<usize>,
    weights: Vec<u64>,
    blocks: Tree,
    used: usize,
    alloc: Global,
}

fn weight_in(weights: &[u64], key: usize) -> u64 {
    match weights.get(key) {
        Some(weight) => *weight,
        None => 1,
    }
}

fn sum_of(log: &[u32], weights: &[u64]) -> u64 {
    let mut sum = 0;
    for number in log {
        if *number != NO_KEY {
            sum += weight_in(weights, *number as usize);
        }
    }
    sum
}

/// Returns the sum of the weights of the slots after this slot.
fn weight_behind(log: &[u32], weights: &[u64], blocks: &Tree, slot: usize) -> u64 {
    let block = slot / BLOCK;
    let end = (BLOCK * (block + 1)).min(log.len());
    sum_of(&(*at!(log, slot + 1..end)), weights) + blocks.weight_behind(block)
}

impl Distances {
    pub fn new(alloc: Global) -> Result<Self, AllocError> {
        Ok(Distances {
            log: Vec::with_capacity(alloc, BLOCK)?,
            slots: Vec::new(alloc),
            weights: Vec::new(alloc),
            blocks: Tree::new(alloc, 1)?,
            used: 0,
            alloc,
        })
    }

    pub fn add_key(&mut self) -> Result<usize, AllocError> {
        let key = self.slots.len();
        if key >= NO_KEY as usize {
            return Err(AllocError);
        }
        self.slots.push(NO_SLOT)?;
        Ok(key)
    }

    pub fn add_weighed_key(&mut self, weight: u64) -> Result<usize, AllocError> {
        let key = self.slots.len();
        if key >= NO_KEY as usize {
            return Err(AllocError);
        }
        self.weights.reserve(1)?;
        self.slots.push(NO_SLOT)?;
        self.weights.push_reserved(weight);
        Ok(key)
    }

    /// Removes the key that was added last, if it was not referenced.
    pub fn remove_key(&mut self) {
        self.slots.pop();
        self.weights.truncate(self.slots.len());
    }

    pub fn referenced(&self) -> usize {
        self.used
    }

    pub fn weight(&self, key: usize) -> u64 {
        weight_in(&self.weights, key)
    }

    /// Returns the sum of the weights of the keys that were referenced after the last reference to this key.
    pub fn position(&self, key: usize) -> Option<u64> {
        let slot = (*at!(self.slots, key));
        if slot == NO_SLOT {
            return None;
        }
        Some(weight_behind(&self.log, &self.weights, &self.blocks, slot))
    }

    fn take_out(&mut self, key: usize) -> Option<u64> {
        let slot = (*at!(self.slots, key));
        if slot == NO_SLOT {
            return None;
        }
        let weight = self.weight(key);
        let behind = weight_behind(&self.log, &self.weights, &self.blocks, slot);
        self.blocks.subtract(slot / BLOCK, weight);
        (*at_mut!(self.log, slot)) = NO_KEY;
        (*at_mut!(self.slots, key)) = NO_SLOT;
        self.used -= 1;
        Some(behind)
    }

    fn append(&mut self, key: usize) {
        let slot = self.log.len();
        let weight = self.weight(key);
        self.log.push_reserved(key as u32);
        (*at_mut!(self.slots, key)) = slot;
        self.blocks.add(slot / BLOCK, weight);
        self.used += 1;
    }

    fn make_room(&mut self) -> Result<(), AllocError> {
        let blocks = (self.used + self.used / 2) / BLOCK + 1;
        let sums = Tree::new(self.alloc, blocks)?;
        let free = Vec::with_capacity(self.alloc, BLOCK * blocks)?;
        let log = mem::replace(&mut self.log, free);
        self.blocks = sums;
        self.slots.fill(NO_SLOT);
        self.used = 0;
        for key in &log {
            if *key != NO_KEY {
                self.append(*key as usize);
            }
        }
        Ok(())
    }

    /// Makes room for one reference.
    ///
    /// # Errors
    ///
    /// Out of memory for a new log.
    pub fn reserve(&mut self) -> Result<(), AllocError> {
        if self.log.len() == BLOCK * self.blocks.len() {
            self.make_room()?;
        }
        Ok(())
    }

    /// References a key, and returns the sum of the weights of the other keys that were referenced since the last
    /// reference to this key. If all weights are 1, this sum is the reuse distance. If the key was not referenced
    /// before, returns `None`.
    ///
    /// Cost: `O(log n)` for n keys, amortised over the references.
    ///
    /// # Errors
    ///
    /// Out of memory for a new log. The key was not referenced.
    pub fn refer(&mut self, key: usize) -> Result<Option<u64>, AllocError> {
        self.reserve()?;
        let distance = self.take_out(key);
        self.append(key);
        Ok(distance)
    }
}
