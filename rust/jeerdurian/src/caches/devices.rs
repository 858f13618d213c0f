//! Devices over a file.

use crate::caches::BlockDevice;
use crate::erased::lru_caches as proved;
use std::io::{Read, Seek, Write};

/// A file with a call that makes its bytes survive a crash. For a `File` this is `sync_data`; for a `Cursor` the call
/// does nothing. A file device makes the call when it syncs, after it flushed the writer.
///
/// ```
/// use jeerdurian::caches::Durable;
///
/// assert!(std::io::Cursor::new([0; 4]).make_durable().is_ok());
/// ```
pub use crate::erased::lru_caches::Durable;

/// Why a call on a file device failed.
///
/// ```
/// use jeerdurian::caches::{BlockDevice, FileDevice, FileError};
///
/// let mut device: FileDevice<_, 4> = FileDevice::new(std::io::Cursor::new(*b"zeroone."), 2);
/// assert_eq!(device.read(9), Err(FileError::File));
/// ```
pub use crate::erased::lru_caches::FileError;

impl core::error::Error for FileError {}

impl Eq for FileError {}

/// Defines a device for callers in Rust: the proved device, with Rust's allocator, and whether a sync has failed.
macro_rules! file_device {
    ($(#[$docs:meta])* $name:ident, $least:literal) => {
        $(#[$docs])*
        pub struct $name<F, const N: usize>(proved::$name<F, N>, bool);

        impl<F: Read + Write + Seek, const N: usize> $name<F, N> {
            /// Makes a device of the first `count` blocks of a file. It reads nothing, and takes no memory for them.
            ///
            /// ```
            #[doc = concat!("# use jeerdurian::caches::", stringify!($name), ";")]
            /// let file = std::io::Cursor::new([0; 48]);
            #[doc = concat!("assert_eq!(", stringify!($name), "::<_, 16>::new(file, 3).len(), 3);")]
            /// ```
            #[allow(unused_comparisons, clippy::absurd_extreme_comparisons)]
            pub fn new(file: F, count: u64) -> Self {
                const { assert!(N >= $least, "a block has fewer bytes than its checksum") };
                $name(proved::$name::new(file, count), false)
            }

            /// Makes a device of all whole blocks of the file.
            ///
            /// # Errors
            ///
            /// The seek to the end of the file failed, or `N` is 0.
            ///
            /// ```
            #[doc = concat!("# use jeerdurian::caches::", stringify!($name), ";")]
            /// let file = std::io::Cursor::new([0; 50]);
            #[doc = concat!("assert_eq!(", stringify!($name), "::<_, 16>::open(file).map(|it| it.len()), Ok(3));")]
            /// ```
            #[allow(unused_comparisons, clippy::absurd_extreme_comparisons)]
            pub fn open(file: F) -> Result<Self, FileError> {
                const { assert!(N >= $least, "a block has fewer bytes than its checksum") };
                proved::$name::open(file).map(|device| $name(device, false))
            }

            /// Returns the number of blocks.
            ///
            /// ```
            #[doc = concat!("# use jeerdurian::caches::", stringify!($name), " as Device;")]
            /// # let file = std::io::Cursor::new([7; 48]);
            /// # let device: Device<_, 16> = Device::new(file, 3);
            /// assert_eq!(device.len(), 3);
            /// ```
            pub fn len(&self) -> u64 {
                self.0.len()
            }

            /// Returns whether there are no blocks.
            ///
            /// ```
            #[doc = concat!("# use jeerdurian::caches::", stringify!($name), " as Device;")]
            /// # let file = std::io::Cursor::new([7; 48]);
            /// # let device: Device<_, 16> = Device::new(file, 3);
            /// assert!(!device.is_empty());
            /// ```
            pub fn is_empty(&self) -> bool {
                self.len() == 0
            }

            /// Returns the file, for example to read its metadata.
            ///
            /// ```
            #[doc = concat!("# use jeerdurian::caches::", stringify!($name), " as Device;")]
            /// # let file = std::io::Cursor::new([7; 48]);
            /// # let device: Device<_, 16> = Device::new(file, 3);
            /// assert_eq!(device.file().position(), 0);
            /// ```
            pub fn file(&self) -> &F {
                self.0.file()
            }

            /// Returns the file, and drops the device. It does not sync the file.
            ///
            /// ```
            #[doc = concat!("# use jeerdurian::caches::", stringify!($name), " as Device;")]
            /// # let file = std::io::Cursor::new([7; 48]);
            /// # let device: Device<_, 16> = Device::new(file, 3);
            /// assert_eq!(device.into_file().into_inner(), [7; 48]);
            /// ```
            pub fn into_file(self) -> F {
                self.0.into_file()
            }
        }

        impl<F: Read + Write + Seek + Durable, const N: usize> BlockDevice<[u8; N]> for $name<F, N> {
            type Error = FileError;

            fn has(&self, n: u64) -> bool {
                proved::BlockDevice::<[u8; N]>::has(&self.0, n)
            }

            fn is_usable(&self) -> bool {
                !self.1 && proved::BlockDevice::<[u8; N]>::is_usable(&self.0)
            }

            fn read(&mut self, n: u64) -> Result<[u8; N], FileError> {
                if !self.has(n) || !self.is_usable() {
                    return Err(FileError::File);
                }
                proved::BlockDevice::read(&mut self.0, n)
            }

            fn write(&mut self, n: u64, block: &[u8; N]) -> Result<(), FileError> {
                if !self.has(n) || !self.is_usable() {
                    return Err(FileError::File);
                }
                proved::BlockDevice::write(&mut self.0, n, block)
            }

            fn sync(&mut self) -> Result<(), FileError> {
                if !self.is_usable() {
                    return Err(FileError::File);
                }
                // A sync that panics has failed, too.
                self.1 = true;
                let synced = proved::BlockDevice::<[u8; N]>::sync(&mut self.0);
                self.1 = synced.is_err();
                synced
            }
        }
    };
}

file_device!(
    /// A device of the blocks of a file, of `N` bytes each. Only the file is kept in memory, no blocks.
    ///
    /// A call fails with `File` if the file fails, if the device has no such block, or after a `sync` failed or
    /// panicked.
    ///
    /// ```
    /// use jeerdurian::caches::{BlockDevice, FileDevice};
    ///
    /// # fn main() -> Result<(), jeerdurian::caches::FileError> {
    /// let file = std::io::Cursor::new(*b"zeroone.two."); // or a `File`
    /// let mut device: FileDevice<_, 4> = FileDevice::new(file, 3);
    /// device.write(1, b"uno.")?;
    /// assert_eq!(device.read(1), Ok(*b"uno."));
    /// # Ok(())
    /// # }
    /// ```
    FileDevice, 0
);

file_device!(
    /// A device of the blocks of a file, of `N` bytes each, with a checksum in the last 8 bytes of each block.
    ///
    /// A write overwrites the last 8 bytes of the block with the checksum, so keep nothing there. A
    /// [`PageCache`](super::PageCache) shows a written page with the caller's 8 bytes until the page is evicted; a
    /// later read shows the checksum.
    ///
    /// A read fails with `Damaged` if the checksum does not fit the block: the block is torn, damaged, written for
    /// another number, or not written by this device. The hash is public, so whoever can write the file can forge a
    /// block.
    ///
    /// ```
    /// use jeerdurian::caches::{BlockDevice, FileError, HashedFileDevice};
    ///
    /// # fn main() -> Result<(), FileError> {
    /// let file = std::io::Cursor::new([0; 48]); // or a `File`
    /// let mut device: HashedFileDevice<_, 16> = HashedFileDevice::new(file, 3);
    /// device.write(1, b"uno.....checksum")?;
    /// assert!(device.read(1)?.starts_with(b"uno....."));
    /// assert_eq!(device.read(2), Err(FileError::Damaged));
    /// # Ok(())
    /// # }
    /// ```
    HashedFileDevice, 8
);
