// Erased from crates/lru_replay/src/lines/drain.rt: do not edit.
//! The line `drain`.

#[allow(unused_imports)]
use crate::rattle_std::prelude::*;

use crate::erased::schnellru::{Insertion, LruMap};
use crate::programs::lru_replay::ReplayError;
use crate::programs::lru_replay::lines::taken::{end_of_pairs, write_taken};
use crate::rattle_std::io::Write;

/// Takes out the `most` newest pairs, writes each at once, and then drops the others. After a failed write, nothing
/// more is written, but the map still loses all its pairs.
pub fn write_drain<L: Insertion<u64, u64, u64>, W: Write>(
    writer: &mut W,
    map: &mut LruMap<u64, u64, L>,
    most: usize,
) -> Result<(), ReplayError> {
    let count = most.min(map.len());
    let mut any = false;
    let mut written = Ok(());
    for _ in 0..count {
        let taken = map.pop_newest();
        written = write_taken(writer, written, any, taken);
        any = any | taken.is_some();
    }
    map.clear();
    end_of_pairs(writer, written, any)
}
