//! Rust's `io`, with readers of lines that write into Rattle's vectors.

use super::vec::Vec;

pub use std::io::*;

/// Rust's `BufRead`.
pub trait BufRead {
    fn fill_buf(&mut self) -> Result<&[u8]>;

    fn consume(&mut self, n: usize);

    /// Adds the bytes up to and including the next `byte`. Returns how many, or an error if memory cannot hold them.
    fn read_until(&mut self, byte: u8, line: &mut Vec<u8>) -> Result<usize>;
}

impl<R: std::io::BufRead> BufRead for R {
    fn fill_buf(&mut self) -> Result<&[u8]> {
        std::io::BufRead::fill_buf(self)
    }

    fn consume(&mut self, n: usize) {
        std::io::BufRead::consume(self, n);
    }

    fn read_until(&mut self, byte: u8, line: &mut Vec<u8>) -> Result<usize> {
        let mut count = 0;
        loop {
            let bytes = match std::io::BufRead::fill_buf(self) {
                Ok(bytes) => bytes,
                Err(error) if error.kind() == ErrorKind::Interrupted => continue,
                Err(error) => return Err(error),
            };
            let end = bytes.iter().position(|it| *it == byte);
            let part = end.map_or(bytes, |end| &bytes[..=end]);
            line.as_std_mut().try_reserve(part.len())?;
            line.as_std_mut().extend_from_slice(part);
            let added = part.len();
            count += added;
            std::io::BufRead::consume(self, added);
            if end.is_some() || added == 0 {
                return Ok(count);
            }
        }
    }
}
