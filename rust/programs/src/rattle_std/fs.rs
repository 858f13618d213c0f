//! Files. Rattle's calls take the runtime.

use super::runtime::HostRuntime;
use std::io::Result;
use std::path::Path;

pub use std::fs::File;

pub fn read(_: &HostRuntime, path: impl AsRef<Path>) -> Result<std::vec::Vec<u8>> {
    std::fs::read(path)
}

pub fn read_to_string(_: &HostRuntime, path: impl AsRef<Path>) -> Result<String> {
    std::fs::read_to_string(path)
}

pub fn write(_: &HostRuntime, path: impl AsRef<Path>, bytes: impl AsRef<[u8]>) -> Result<()> {
    std::fs::write(path, bytes)
}

/// Rust's `OpenOptions`.
pub struct OpenOptions(std::fs::OpenOptions);

impl OpenOptions {
    pub fn new() -> Self {
        OpenOptions(std::fs::OpenOptions::new())
    }

    pub fn read(&mut self, read: bool) {
        self.0.read(read);
    }

    pub fn write(&mut self, write: bool) {
        self.0.write(write);
    }

    pub fn create(&mut self, create: bool) {
        self.0.create(create);
    }

    pub fn truncate(&mut self, truncate: bool) {
        self.0.truncate(truncate);
    }

    pub fn open(&self, _: &HostRuntime, path: impl AsRef<Path>) -> Result<File> {
        self.0.open(path)
    }
}
