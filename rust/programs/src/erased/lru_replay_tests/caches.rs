// Erased from crates/lru_replay_tests/src/caches.rt: do not edit.
//! Calls of a memo, of a loader and of a page cache that are references.

#[allow(unused_imports)]
use crate::rattle_std::prelude::*;

use crate::erased::lru_caches::{BlockDevice, Loader, Memo, PageCache, PageError};
use crate::erased::schnellru::{ByLength, RandomState};
use crate::programs::lru_replay::references::calls_make_references;

/// If the memo does not run out of memory, the call is a reference.
fn answer<F: Fn(&String) -> u64>(memo: &mut Memo<String, u64, F, ByLength>, key: String) -> u64 {
    calls_make_references::<String, u64, RandomState>();
    memo.answer(key)
}

/// If the call returns `Ok`, and the loader does not run out of memory, the call is a reference.
fn load<F: Fn(&String) -> Result<u64, u64>>(
    loader: &mut Loader<String, u64, F, ByLength>,
    key: String,
) -> Result<u64, u64> {
    calls_make_references::<String, u64, RandomState>();
    let value = loader.load(key)?;
    Ok(value)
}

/// Reads a block through a page cache that has no pins and may evict dirty pages. A successful read is a reference to
/// the block number: the numbers of the pages change like the keys of an LRU cache (`refers`). If the cached pages were
/// the pages that were read last, this is still so afterwards (`newest`).
fn read<D: BlockDevice<u8>>(cache: &mut PageCache<u8, D>, n: u64) -> Result<u8, PageError<D::Error>> {
    crate::erased::lru_theory::a_cache_is_the_newest::<u64>();
    cache.without_pins_the_newest_stay();
    let block = cache.read(n)?;
    Ok(block)
}

fn read_both<D: BlockDevice<u8>>(
    small: &mut PageCache<u8, D>,
    large: &mut PageCache<u8, D>,
    n: u64,
) -> Result<u8, PageError<D::Error>> {
    crate::erased::lru_theory::a_smaller_cache_is_included::<u64>();
    read(small, n)?;
    let block = read(large, n)?;
    Ok(block)
}
