// Erased from crates/lru_caches_tests/src/callers.rt: do not edit.
//! Functions with their own contracts, which call a page cache, an ordered map and a counted map.

#[allow(unused_imports)]
use crate::rattle_std::prelude::*;

use crate::erased::lru_caches::{BlockDevice, CountedMap, OrderedMap, PageCache, PageError};
use crate::erased::schnellru::ByLength;
use crate::rattle_std::alloc::AllocError;

pub fn copy_block<D: BlockDevice<u64>>(
    cache: &mut PageCache<u64, D>,
    from: u64,
    to: u64,
) -> Result<(), PageError<D::Error>> {
    let block = cache.read(from)?;
    cache.write(to, block)
}

pub fn write_durably<D: BlockDevice<u64>>(
    cache: &mut PageCache<u64, D>,
    n: u64,
    block: u64,
) -> Result<(), PageError<D::Error>> {
    cache.write(n, block)?;
    cache.flush()
}

pub fn overwrite(map: &mut OrderedMap<u64, u64>, key: u64, value: u64) -> bool {
    match map.get_mut(&key) {
        Some(place) => {
            *place = value;
            true
        }
        None => false,
    }
}

/// Looks a path up. If the path is not there, stores how many bytes its page has. Returns whether the path was there.
pub fn visit(pages: &mut CountedMap<String, u64, ByLength>, path: String, bytes: u64) -> Result<bool, AllocError> {
    if pages.promote(&path) {
        return Ok(true);
    }
    pages.insert(path, bytes)?;
    Ok(false)
}
