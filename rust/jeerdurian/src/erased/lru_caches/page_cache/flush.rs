// Erased from crates/lru_caches/src/page_cache/flush.rt: do not edit.
#[allow(unused_imports)]
use crate::rattle_std::prelude::*;

use crate::erased::lru_caches::device::BlockDevice;
use crate::erased::lru_caches::page_cache::pages::{Page, Pages};
use crate::erased::lru_caches::page_cache::{PageCache, PageError};
use crate::erased::schnellru::KeyHasher;

/// Reserves memory for one more page number, so that flushes allocate nothing.
pub(super) fn reserve_number<E>(numbers: &mut Vec<u64>, pages: usize) -> Result<(), PageError<E>> {
    numbers.clear();
    let Some(needed) = pages.checked_add(1) else {
        return Err(PageError::Memory);
    };
    numbers.reserve(needed).map_err(|_| PageError::Memory)
}

pub(super) fn list_dirty<B: Copy, S: KeyHasher<u64>>(map: &Pages<B, S>, numbers: &mut Vec<u64>) {
    collect_dirty(map, numbers);
    numbers.sort_unstable();
}

fn collect_dirty<B: Copy, S: KeyHasher<u64>>(map: &Pages<B, S>, numbers: &mut Vec<u64>) {
    numbers.clear();
    for (n, page) in map.iter() {
        if page.is_dirty {
            numbers.push_reserved(*n);
        }
    }
}

pub(super) fn write_back<B: Copy, D: BlockDevice<B>>(
    device: &mut D,
    n: u64,
    page: &Page<B>,
) -> Result<(), PageError<D::Error>> {
    if !page.is_dirty {
        return Ok(());
    }
    device.write(n, page.block.get()).map_err(PageError::Device)
}

pub(super) fn write_page<B: Copy, D: BlockDevice<B>, S: KeyHasher<u64>>(
    map: &Pages<B, S>,
    device: &mut D,
    n: u64,
) -> Result<(), PageError<D::Error>> {
    match map.peek(&n) {
        Some(page) => write_back(device, n, page),
        None => Ok(()),
    }
}

pub(super) fn write_all_back<B: Copy, D: BlockDevice<B>, S: KeyHasher<u64>>(
    map: &Pages<B, S>,
    numbers: &[u64],
    device: &mut D,
) -> Result<(), PageError<D::Error>> {
    write_each_back(map, numbers, device)?;
    device.sync().map_err(PageError::Device)
}

fn write_each_back<B: Copy, D: BlockDevice<B>, S: KeyHasher<u64>>(
    map: &Pages<B, S>,
    numbers: &[u64],
    device: &mut D,
) -> Result<(), PageError<D::Error>> {
    for n in numbers {
        write_page(map, device, *n)?;
    }
    Ok(())
}

pub(super) fn make_clean<B: Copy, S: KeyHasher<u64>>(map: &mut Pages<B, S>) {
    map.for_each_mut(|_, page| page.is_dirty = false);
}

fn clean_page<B: Copy, S: KeyHasher<u64>>(map: &mut Pages<B, S>, n: u64) {
    if let Some(page) = map.peek_mut(&n) {
        page.is_dirty = false;
    }
}

impl<B: Copy, D: BlockDevice<B>, S: KeyHasher<u64>> PageCache<B, D, S> {
    /// If a page is cached and dirty, writes it to the device, and makes it clean. Does not change the order of use.
    ///
    /// `flush_page` does not call `sync`. Until a `flush` returns `Ok`, a crash may leave the old block or a torn
    /// block.
    ///
    /// Cost: `O(1)` expected, and at most one write of the device.
    ///
    /// # Errors
    ///
    /// `Broken`: an earlier `sync` failed. `Device`: the write failed, and the page stays dirty.
    pub fn flush_page(&mut self, n: u64) -> Result<(), PageError<D::Error>> {
        if !self.device.is_usable() {
            return Err(PageError::Broken);
        }
        write_page(&self.map, &mut self.device, n)?;
        clean_page(&mut self.map, n);
        Ok(())
    }

    /// Returns how many pages are dirty.
    ///
    /// Cost: `O(len)`.
    pub fn dirty_len(&self) -> usize {
        count_dirty(&self.map)
    }
}

fn count_dirty<B: Copy, S: KeyHasher<u64>>(map: &Pages<B, S>) -> usize {
    let mut count = 0usize;
    for (_, page) in map.iter() {
        if page.is_dirty {
            count += 1;
        }
    }
    count
}
