// Erased from crates/lru_trace/src/output.rt: do not edit.
#[allow(unused_imports)]
use crate::rattle_std::prelude::*;

use crate::rattle_std::io::{ErrorKind, Write};

/// Writes the bytes, and returns whether all were written. An interrupted write is repeated.
pub fn write_bytes<W: Write>(writer: &mut W, bytes: &[u8]) -> bool {
    let mut rest = bytes;
    for _ in 0..u64::MAX {
        if rest.is_empty() {
            return true;
        }
        match writer.write(rest) {
            Ok(0) => return false,
            Ok(n) => rest = &rest[n..],
            Err(e) => {
                if e.kind() != ErrorKind::Interrupted {
                    return false;
                }
            }
        }
    }
    false
}
