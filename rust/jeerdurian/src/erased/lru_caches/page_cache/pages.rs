// Erased from crates/lru_caches/src/page_cache/pages.rt: do not edit.
#[allow(unused_imports)]
use crate::rattle_std::prelude::*;

use crate::erased::lru_caches::device::BlockDevice;
use crate::erased::lru_caches::page_cache::PageError;
use crate::erased::lru_caches::page_cache::boxed::Boxed;
use crate::erased::lru_caches::page_cache::evict::replace;
use crate::erased::schnellru::{KeyHasher, LruMap, UnlimitedCompact};
use crate::rattle_std::alloc::Global;

pub(super) struct Page<B> {
    pub(super) block: Boxed<B>,
    pub(super) is_dirty: bool,
    pub(super) is_pinned: bool,
}

#[derive(Clone, Copy)]
pub(super) struct Counts {
    pub(super) hits: u64,
    pub(super) misses: u64,
    pub(super) evictions: u64,
}

impl Counts {
    fn count_hit_if(&mut self, there: bool) {
        if there {
            self.hits = self.hits.saturating_add(1);
        }
    }
}

impl<B> Page<B> {
    pub(super) fn is_free(&self, keeps_dirty: bool) -> bool {
        !(self.is_pinned || keeps_dirty && self.is_dirty)
    }
}

pub(super) type Pages<B, S> = LruMap<u64, Page<B>, UnlimitedCompact, S>;

pub(super) fn admit<B: Copy, D: BlockDevice<B>>(device: &D, n: u64) -> Result<(), PageError<D::Error>> {
    if !device.is_usable() {
        return Err(PageError::Broken);
    }
    if !device.has(n) {
        return Err(PageError::NoBlock);
    }
    Ok(())
}

fn read_block<B: Copy, D: BlockDevice<B>>(device: &mut D, n: u64) -> Result<B, PageError<D::Error>> {
    device.read(n).map_err(PageError::Device)
}

pub(super) fn load<B: Copy, D: BlockDevice<B>, S: KeyHasher<u64>>(
    alloc: Global,
    map: &mut Pages<B, S>,
    device: &mut D,
    counts: &mut Counts,
    gone: Option<u64>,
    hash: u64,
    n: u64,
) -> Result<(), PageError<D::Error>> {
    let block = read_block(device, n)?;
    replace(alloc, map, device, counts, gone, hash, n, &block, false)
}

pub(super) fn promote<B: Copy, S: KeyHasher<u64>>(
    map: &mut Pages<B, S>,
    counts: &mut Counts,
    hash: u64,
    n: u64,
) -> bool {
    let there = promote_hashed(map, hash, n);
    counts.count_hit_if(there);
    there
}

fn promote_hashed<B: Copy, S: KeyHasher<u64>>(map: &mut Pages<B, S>, hash: u64, n: u64) -> bool {
    let _len = map.len();
    match map.get_by_hash(hash, |other, _| *other == n) {
        Some(_) => true,
        None => false,
    }
}

pub(super) fn overwrite<B: Copy, S: KeyHasher<u64>>(
    map: &mut Pages<B, S>,
    counts: &mut Counts,
    hash: u64,
    n: u64,
    block: &B,
) -> bool {
    if !promote(map, counts, hash, n) {
        return false;
    }
    fill_newest(map, block);
    true
}

fn fill_newest<B: Copy, S: KeyHasher<u64>>(map: &mut Pages<B, S>, block: &B) {
    if let Some(page) = map.newest_mut() {
        page.block.set(block);
        page.is_dirty = true;
    }
}

pub(super) fn add_page<B: Copy, E, S: KeyHasher<u64>>(
    map: &mut Pages<B, S>,
    hash: u64,
    n: u64,
    page: Page<B>,
) -> Result<(), PageError<E>> {
    map.try_insert_hashed(hash, n, page).map_err(|_| PageError::Memory)
}

pub(super) fn read_newest<B: Copy, S: KeyHasher<u64>, R, U: FnOnce(&B) -> R>(map: &Pages<B, S>, read: U) -> R {
    match map.peek_newest() {
        Some((_, page)) => read(page.block.get()),
        None => unreachable!(),
    }
}

pub(super) fn write_newest<B: Copy, S: KeyHasher<u64>, R, U: FnOnce(&mut B) -> R>(
    map: &mut Pages<B, S>,
    write: U,
) -> R {
    match map.newest_mut() {
        Some(page) => {
            page.is_dirty = true;
            page.block.write(write)
        }
        None => unreachable!(),
    }
}

pub(super) fn pin_newest<B: Copy, S: KeyHasher<u64>>(map: &mut Pages<B, S>) {
    if let Some(page) = map.newest_mut() {
        page.is_pinned = true;
    }
}

pub(super) fn unpin_page<B: Copy, S: KeyHasher<u64>>(map: &mut Pages<B, S>, n: u64) -> bool {
    match map.peek_mut(&n) {
        Some(page) => {
            let was_pinned = page.is_pinned;
            page.is_pinned = false;
            was_pinned
        }
        None => false,
    }
}

pub(super) fn is_pinned_at<B: Copy, S: KeyHasher<u64>>(map: &Pages<B, S>, n: u64) -> bool {
    match map.peek(&n) {
        Some(page) => page.is_pinned,
        None => false,
    }
}
