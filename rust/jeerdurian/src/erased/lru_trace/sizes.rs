// Erased from crates/lru_trace/src/sizes.rt: do not edit.
#[allow(unused_imports)]
use crate::rattle_std::prelude::*;

use crate::rattle_std::alloc::{AllocError, Global};

fn with_digit(number: usize, byte: u8) -> Option<usize> {
    if byte < b'0' || b'9' < byte {
        return None;
    }
    let digit = (byte - b'0') as usize;
    number.checked_mul(10)?.checked_add(digit)
}

pub fn number_of(text: &[u8]) -> Option<usize> {
    let mut number = None;
    for byte in text {
        number = Some(with_digit(number.unwrap_or(0), *byte)?);
    }
    number
}

pub fn sizes_of(alloc: Global, line: &[u8]) -> Result<Option<Vec<usize>>, AllocError> {
    let mut sizes = Vec::new(alloc);
    let mut begun = None;
    for byte in line {
        if let Some(number) = begun {
            if *byte == b' ' {
                sizes.push(number)?;
                begun = None;
                continue;
            }
        }
        begun = with_digit(begun.unwrap_or(0), *byte);
        if begun.is_none() {
            return Ok(None);
        }
    }
    let Some(last) = begun else {
        return Ok(None);
    };
    sizes.push(last)?;
    Ok(Some(sizes))
}
