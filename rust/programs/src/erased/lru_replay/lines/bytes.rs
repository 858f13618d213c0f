// Erased from crates/lru_replay/src/lines/bytes.rt: do not edit.
#[allow(unused_imports)]
use crate::rattle_std::prelude::*;

pub fn index_of(bytes: &[u8], byte: u8) -> usize {
    for (i, b) in bytes.iter().enumerate() {
        if *b == byte {
            return i;
        }
    }
    bytes.len()
}
