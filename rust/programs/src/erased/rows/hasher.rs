// Erased from crates/rows/src/hasher.rt: do not edit.
//! A hasher whose hashes a row chooses.

#[allow(unused_imports)]
use crate::rattle_std::prelude::*;

use crate::rattle_std::hash::{BuildHasher, Hasher};

/// The hash is a polynomial in the factor, with the bytes as coefficients. With factor 0 the hash is the last byte.
/// With factor 1 it is the sum of the bytes.
#[derive(Clone, Copy)]
pub struct Polynomial {
    pub factor: u64,
    pub hash: u64,
}

impl Hasher for Polynomial {
    fn write(&mut self, bytes: &[u8]) {
        let factor = self.factor;
        self.hash = bytes.iter().fold(self.hash, |a, b| a.wrapping_mul(factor).wrapping_add(*b as u64));
    }

    fn finish(&self) -> u64 {
        self.hash
    }
}

impl BuildHasher for Polynomial {
    type Hasher = Polynomial;

    fn build_hasher(&self) -> Polynomial {
        *self
    }
}
