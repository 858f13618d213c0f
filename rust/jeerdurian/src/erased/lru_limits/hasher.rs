// Erased from crates/lru_limits/src/hasher.rt: do not edit.
//! A fast seeded hasher: each eight bytes of a write cost one multiplication. The hashes may change in later versions.

#[allow(unused_imports)]
use crate::rattle_std::prelude::*;

use crate::rattle_std::fmt::{Debug, Formatter, Result, Write};
use crate::rattle_std::hash::{BuildHasher, Hasher};

// The first 64 fractional bits of the square roots of 2, 3, 5 and 7.
const STATE: u64 = 0x6a09_e667_f3bc_c908;

const WORD_KEY: u64 = 0xbb67_ae85_84ca_a73b;

const REST_KEY: u64 = 0x3c6e_f372_fe94_f82b;

const REST_FACTOR: u64 = 0xa54f_f53a_5f1d_36f1;

/// Builds hashers with four seeds. Contracts represent a `RandomState` by the hasher that it builds.
///
/// In a map with an equal `RandomState`, the hash of a key is `state.hash_one(&key)`. The default seeds are 1, 2, 3, 4,
/// so an attacker can choose keys that collide.
#[derive(Clone, Copy)]
pub struct RandomState {
    state: u64,
    word_key: u64,
    rest_key: u64,
}

impl RandomState {
    /// Makes the state with these seeds.
    pub const fn with_seeds(seeds: [u64; 4]) -> RandomState {
        RandomState {
            state: seeds[0] ^ STATE,
            word_key: seeds[1] ^ WORD_KEY,
            rest_key: folded(seeds[2] ^ REST_KEY, seeds[3] ^ REST_FACTOR),
        }
    }
}

impl Default for RandomState {
    fn default() -> RandomState {
        RandomState::with_seeds([1, 2, 3, 4])
    }
}

/// Does not show the seeds.
impl Debug for RandomState {
    fn fmt(&self, f: &mut Formatter<'_>) -> Result {
        f.debug_struct("RandomState").finish_non_exhaustive()
    }
}

impl BuildHasher for RandomState {
    type Hasher = DefaultHasher;

    #[inline]
    fn build_hasher(&self) -> DefaultHasher {
        DefaultHasher { state: self.state, word_key: self.word_key, rest_key: self.rest_key }
    }
}

/// The hasher that a `RandomState` makes.
///
/// A whole number is written as its bytes, the lowest byte first: `write_u64(n)` does what `write(&n.to_le_bytes())`
/// does. The hash may change if one write is split into two.

pub struct DefaultHasher {
    state: u64,
    word_key: u64,
    rest_key: u64,
}

#[inline]
const fn folded(a: u64, b: u64) -> u64 {
    let product = a as u128 * b as u128;
    (product & u64::MAX as u128) as u64 ^ (product >> 64) as u64
}

// Returns one to seven bytes as a number, lowest byte first, by two or three loads that may overlap.
#[inline]
fn short_number(bytes: &[u8]) -> u64 {
    let len = bytes.len();
    if len >= 4 {
        let first = u32::from_le_bytes([bytes[0], bytes[1], bytes[2], bytes[3]]);
        let last = u32::from_le_bytes([
            (*at!(bytes, len - 4)),
            (*at!(bytes, len - 3)),
            (*at!(bytes, len - 2)),
            (*at!(bytes, len - 1)),
        ]);
        let above = last as u64 >> (8 * (8 - len));
        first as u64 + (above << 32)
    } else {
        let middle = ((*at!(bytes, len / 2)) as u64) << (8 * (len / 2));
        let last = ((*at!(bytes, len - 1)) as u64) << (8 * (len - 1));
        bytes[0] as u64 | (middle | last)
    }
}

impl DefaultHasher {
    #[inline]
    fn join_word(&mut self, word: u64) {
        self.state = folded(self.state ^ word, self.word_key);
    }

    // Mixes fewer than eight bytes into the state, with their count as the top byte.
    #[inline]
    fn join_rest(&mut self, bytes: u64, count: u64) {
        self.state = folded(self.state ^ (bytes + (count << 56)), self.rest_key);
    }
}

impl Hasher for DefaultHasher {
    fn write(&mut self, bytes: &[u8]) {
        let (words, rest) = bytes.as_chunks::<8>();
        let key = self.word_key;
        self.state = words.iter().fold(self.state, |state, word| folded(state ^ u64::from_le_bytes(*word), key));
        if rest.len() > 0 {
            self.join_rest(short_number(rest), rest.len() as u64);
        }
    }

    #[inline]
    fn write_u8(&mut self, i: u8) {
        self.join_rest(i as u64, 1);
    }

    #[inline]

    fn write_u16(&mut self, i: u16) {
        self.join_rest(i as u64, 2);
    }

    #[inline]

    fn write_u32(&mut self, i: u32) {
        self.join_rest(i as u64, 4);
    }

    #[inline]

    fn write_u64(&mut self, i: u64) {
        self.join_word(i);
    }

    #[inline]
    fn write_u128(&mut self, i: u128) {
        self.join_word((i & u64::MAX as u128) as u64);
        self.join_word((i >> 64) as u64);
    }

    #[inline]

    fn write_usize(&mut self, i: usize) {
        self.join_word(i as u64);
    }

    #[inline]
    fn finish(&self) -> u64 {
        self.state
    }
}
