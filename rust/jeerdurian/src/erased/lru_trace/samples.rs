// Erased from crates/lru_trace/src/samples.rt: do not edit.
#[allow(unused_imports)]
use crate::rattle_std::prelude::*;

const BASIS: u64 = 14_695_981_039_346_656_037;

const PRIME: u64 = 1_099_511_628_211;

pub fn hash(key: &[u8]) -> u64 {
    let mut hash = BASIS;
    for byte in key {
        hash = (hash ^ u64::from(*byte)).wrapping_mul(PRIME);
    }
    hash
}

pub fn is_sampled(key: &[u8], bits: u32) -> bool {
    bits == 0 || hash(key) % (1 << bits) == 0
}
