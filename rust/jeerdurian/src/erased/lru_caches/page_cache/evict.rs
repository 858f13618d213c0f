// Erased from crates/lru_caches/src/page_cache/evict.rt: do not edit.
#[allow(unused_imports)]
use crate::rattle_std::prelude::*;

use crate::erased::lru_caches::device::BlockDevice;
use crate::erased::lru_caches::page_cache::PageError;
use crate::erased::lru_caches::page_cache::boxed::{Boxed, store};
use crate::erased::lru_caches::page_cache::flush::write_page;
use crate::erased::lru_caches::page_cache::pages::{Counts, Page, Pages, add_page};
use crate::erased::schnellru::KeyHasher;
use crate::rattle_std::alloc::Global;

fn find_victim<B: Copy, S: KeyHasher<u64>>(map: &Pages<B, S>, keeps_dirty: bool) -> Option<u64> {
    let mut pages = map.iter();
    while let Some((n, page)) = pages.next_back() {
        if page.is_free(keeps_dirty) {
            return Some(*n);
        }
    }
    None
}

/// Returns the number of the page to evict for a new page, or `None` if the cache is not full.
pub(super) fn find_room<B: Copy, E, S: KeyHasher<u64>>(
    map: &Pages<B, S>,
    capacity: usize,
    keeps_dirty: bool,
) -> Result<Option<u64>, PageError<E>> {
    if map.len() < capacity {
        return Ok(None);
    }
    match find_victim(map, keeps_dirty) {
        Some(n) => Ok(Some(n)),
        None => Err(PageError::Full),
    }
}

/// Evicts the page `gone`, if any, and returns its box.
fn evict<B: Copy, D: BlockDevice<B>, S: KeyHasher<u64>>(
    map: &mut Pages<B, S>,
    device: &mut D,
    gone: Option<u64>,
) -> Result<Option<Boxed<B>>, PageError<D::Error>> {
    let Some(n) = gone else {
        return Ok(None);
    };
    let _ = map.len();
    write_page(map, device, n)?;
    Ok(map.remove(&n).map(|page| page.block))
}

/// Evicts the page `gone`, if any, and inserts page n as the newest.
pub(super) fn replace<B: Copy, D: BlockDevice<B>, S: KeyHasher<u64>>(
    alloc: Global,
    map: &mut Pages<B, S>,
    device: &mut D,
    counts: &mut Counts,
    gone: Option<u64>,
    hash: u64,
    n: u64,
    block: &B,
    is_dirty: bool,
) -> Result<(), PageError<D::Error>> {
    let before = map.len();
    let spare = evict(map, device, gone)?;
    let evicted = before - map.len();
    counts.evictions = counts.evictions.saturating_add(evicted as u64);
    let page = Page { block: store(alloc, spare, block).map_err(|_| PageError::Memory)?, is_dirty, is_pinned: false };
    add_page(map, hash, n, page)?;
    counts.misses = counts.misses.saturating_add(1);
    Ok(())
}
