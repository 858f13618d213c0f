// Erased from crates/lru_trace/src/tree.rt: do not edit.
//! Slots with weights, and the sum of the weights behind each slot.

#[allow(unused_imports)]
use crate::rattle_std::prelude::*;

use crate::rattle_std::alloc::{AllocError, Global};
use crate::rattle_std::boxed::Box;

pub const BLOCK: usize = 16;

/// Slots with weights. Contracts represent a tree by the weight of each slot.
///
/// If there are more than `BLOCK` slots, `sums` is a tree with a slot for each block of slots. The weight of this slot is
/// the sum of the block.

pub struct Tree {
    weights: Vec<u64>,
    sums: Option<Box<Tree>>,
}

fn sum_of(weights: &[u64]) -> u64 {
    weights.iter().sum()
}

impl Tree {
    pub fn new(alloc: Global, slots: usize) -> Result<Self, AllocError> {
        let weights = vec![in alloc; 0; slots]?;
        if slots <= BLOCK {
            return Ok(Tree { weights, sums: None });
        }
        let sums = Tree::new(alloc, (slots - 1) / BLOCK + 1)?;
        let sums = Some(Box::new(alloc, sums)?);
        Ok(Tree { weights, sums })
    }

    pub fn len(&self) -> usize {
        self.weights.len()
    }

    pub fn add(&mut self, slot: usize, weight: u64) {
        (*at_mut!(self.weights, slot)) += weight;
        if let Some(sums) = &mut self.sums {
            sums.add(slot / BLOCK, weight);
        }
    }

    pub fn subtract(&mut self, slot: usize, weight: u64) {
        (*at_mut!(self.weights, slot)) -= weight;
        if let Some(sums) = &mut self.sums {
            sums.subtract(slot / BLOCK, weight);
        }
    }

    pub fn weight_behind(&self, slot: usize) -> u64 {
        let Some(sums) = &self.sums else {
            return sum_of(&(*at!(self.weights, slot + 1..)));
        };
        let block = slot / BLOCK;
        let end = (BLOCK * (block + 1)).min(self.weights.len());
        sum_of(&(*at!(self.weights, slot + 1..end))) + sums.weight_behind(block)
    }
}
