// Erased from crates/lru_caches/src/file_device/durable.rt: do not edit.
#[allow(unused_imports)]
use crate::rattle_std::prelude::*;

use crate::rattle_std::fs::File;
use crate::rattle_std::io;
use crate::rattle_std::io::Cursor;

/// A file that can make its bytes survive a crash. A file device calls `make_durable` when it syncs. If the call
/// returns `Ok`, the device assumes that the bytes survive a crash. After an error, the device makes no more calls on
/// the file.
pub trait Durable {
    /// Makes all bytes that were written and flushed before this call survive a crash.
    ///
    /// # Errors
    ///
    /// The system reported an error. Bytes that were written since the last `Ok` may be lost, even if a later call
    /// returns `Ok`.
    fn make_durable(&mut self) -> io::Result<()>;
}

/// Calls `File::sync_data`, which waits for the disk.
impl Durable for File {
    fn make_durable(&mut self) -> io::Result<()> {
        self.sync_data()
    }
}

/// Does nothing, because the bytes are in memory.
impl<T> Durable for Cursor<T> {
    fn make_durable(&mut self) -> io::Result<()> {
        Ok(())
    }
}
