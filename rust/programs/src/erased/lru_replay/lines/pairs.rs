// Erased from crates/lru_replay/src/lines/pairs.rt: do not edit.
#[allow(unused_imports)]
use crate::rattle_std::prelude::*;

use crate::erased::schnellru::{LinkType, Walk};
use crate::programs::lru_replay::ReplayError;
use crate::programs::lru_replay::lines::output::{write_bytes, write_pair};
use crate::rattle_std::io::Write;

pub fn write_pairs<N: LinkType, W: Write>(writer: &mut W, pairs: Walk<'_, u64, u64, N>) -> Result<(), ReplayError> {
    let mut pairs = pairs;
    let Some((key, value)) = pairs.next() else {
        return write_bytes(writer, b"-");
    };
    write_pair(writer, *key, *value)?;
    write_rest(writer, pairs)
}

fn write_rest<N: LinkType, W: Write>(writer: &mut W, pairs: Walk<'_, u64, u64, N>) -> Result<(), ReplayError> {
    for (key, value) in pairs {
        write_bytes(writer, b" ")?;
        write_pair(writer, *key, *value)?;
    }
    Ok(())
}
