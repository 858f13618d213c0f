//! Caches: an LRU map that counts, functions that remember their results, a hash map in the order of insertion, and a
//! write-back cache of a device's blocks.

mod counted;
mod devices;
mod memo;
mod ordered_map;
mod page_cache;

pub use counted::{CountedMap, Counts};
pub use devices::{Durable, FileDevice, FileError, HashedFileDevice};
pub use memo::{Loader, Memo};
pub use ordered_map::{Entries, EntriesMut, IntoEntries, Keys, OrderedMap, Values, ValuesMut};
#[cfg(feature = "runtime-rng")]
pub use page_cache::with_cache;
pub use page_cache::{BlockDevice, PageCache, PageError, Unclosed};
