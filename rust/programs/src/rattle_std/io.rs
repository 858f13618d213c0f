//! Buffers, and the standard output.

use super::alloc::{AllocError, Global};
use super::runtime::HostRuntime;
use super::vec::Vec;

pub use crate::library::io::*;
pub use std::io::IsTerminal;

/// Makes Rust's `BufReader`. Without memory for its buffer the program ends, where Rattle's `new` returns an error.
pub struct BufReader;

impl BufReader {
    #[allow(clippy::new_ret_no_self)]
    pub fn new<R: Read>(_: Global, reader: R) -> core::result::Result<std::io::BufReader<R>, AllocError> {
        Ok(std::io::BufReader::new(reader))
    }
}

/// Makes Rust's `BufWriter`, in the same manner.
pub struct BufWriter;

impl BufWriter {
    #[allow(clippy::new_ret_no_self)]
    pub fn new<W: Write>(_: Global, writer: W) -> core::result::Result<std::io::BufWriter<W>, AllocError> {
        Ok(std::io::BufWriter::new(writer))
    }
}

/// The standard output.
pub fn writer(_: &HostRuntime) -> std::io::Stdout {
    std::io::stdout()
}

/// What `println!(rt; ..)` does.
pub fn write_line(line: core::fmt::Arguments<'_>) -> Result<()> {
    let mut output = std::io::stdout().lock();
    output.write_fmt(line)?;
    output.write_all(b"\n")
}

/// What `print!(rt; ..)` does.
pub fn write_text(text: core::fmt::Arguments<'_>) -> Result<()> {
    std::io::stdout().lock().write_fmt(text)
}

/// What `eprintln!(rt; ..)` does.
pub fn write_error(line: core::fmt::Arguments<'_>) -> Result<()> {
    let mut errors = std::io::stderr().lock();
    errors.write_fmt(line)?;
    errors.write_all(b"\n")
}

impl From<AllocError> for Error {
    fn from(_: AllocError) -> Error {
        Error::from(ErrorKind::OutOfMemory)
    }
}

impl Write for Vec<u8> {
    fn write(&mut self, bytes: &[u8]) -> Result<usize> {
        self.extend_from_slice(bytes)?;
        Ok(bytes.len())
    }

    fn flush(&mut self) -> Result<()> {
        Ok(())
    }
}
