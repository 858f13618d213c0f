// Erased from crates/test_helpers/src/random.rt: do not edit.
#[allow(unused_imports)]
use crate::rattle_std::prelude::*;

/// A linear congruential generator of random numbers. Equal seeds give equal numbers.

pub struct Random(u64);

impl Random {
    pub fn new(seed: u64) -> Random {
        Random(seed)
    }

    pub fn next(&mut self) -> u64 {
        self.0 = self.0.wrapping_mul(6_364_136_223_846_793_005).wrapping_add(1_442_695_040_888_963_407);
        self.0 ^ (self.0 >> 32)
    }

    pub fn below(&mut self, n: u64) -> u64 {
        (self.next() >> 33).checked_rem(n).unwrap_or(0)
    }
}
