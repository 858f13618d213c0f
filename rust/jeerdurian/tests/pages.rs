//! Tests page caches of many pages, and that a flush makes blocks durable on each device.

use jeerdurian::caches::{BlockDevice, Durable, FileDevice, HashedFileDevice, PageCache, PageError};
use std::io::{Cursor, Read, Result, Seek, SeekFrom, Write};

/// A file in memory that counts how often it is made durable.
struct Disk(Cursor<Vec<u8>>, u32);

impl Read for Disk {
    fn read(&mut self, bytes: &mut [u8]) -> Result<usize> {
        self.0.read(bytes)
    }
}

impl Write for Disk {
    fn write(&mut self, bytes: &[u8]) -> Result<usize> {
        self.0.write(bytes)
    }

    fn flush(&mut self) -> Result<()> {
        self.0.flush()
    }
}

impl Seek for Disk {
    fn seek(&mut self, to: SeekFrom) -> Result<u64> {
        self.0.seek(to)
    }
}

impl Durable for Disk {
    fn make_durable(&mut self) -> Result<()> {
        self.1 += 1;
        Ok(())
    }
}

fn disk() -> Disk {
    Disk(Cursor::new(vec![0; 40_000]), 0)
}

/// Writes blocks through a cache of 100 pages, and reads each back after they are flushed. Returns the device.
fn many_pages<D: BlockDevice<[u8; 64]>>(device: D) -> D
where
    D::Error: std::fmt::Debug + PartialEq,
{
    let mut cache = PageCache::new(device, 100);
    for n in 0..300u64 {
        assert_eq!(cache.write(n, [n as u8; 64]), Ok(()));
        assert_eq!(cache.len() as u64, (n + 1).min(100));
    }
    assert_eq!(cache.flush(), Ok(()));
    let mut cache = PageCache::new(cache.discard(), 100);
    (0..300u64).for_each(|n| assert_eq!(cache.read(n).unwrap()[..56], [n as u8; 56]));
    cache.discard()
}

/// After a sync failed, nothing is written, and no flush returns `Ok`.
#[test]
fn a_failed_sync_is_not_forgotten() {
    struct Syncs(u32);
    impl BlockDevice<u64> for Syncs {
        type Error = u32;
        fn has(&self, n: u64) -> bool {
            n < 9
        }
        fn read(&mut self, n: u64) -> std::result::Result<u64, u32> {
            Ok(n)
        }
        fn write(&mut self, _n: u64, _block: &u64) -> std::result::Result<(), u32> {
            Ok(())
        }
        fn sync(&mut self) -> std::result::Result<(), u32> {
            self.0 += 1;
            if self.0 == 1 { Err(self.0) } else { Ok(()) }
        }
    }
    let mut cache = PageCache::new(Syncs(0), 100);
    assert_eq!(cache.write(9, 9), Err(PageError::NoBlock));
    assert_eq!((cache.write(1, 5), cache.flush()), (Ok(()), Err(PageError::Device(1))));
    assert_eq!(
        (cache.flush(), cache.write(1, 6), cache.read(2)),
        (Err(PageError::Broken), Err(PageError::Broken), Err(PageError::Broken))
    );
    assert_eq!((cache.prefetch(1..2), cache.prefetch(1..3)), (Ok(()), Err(PageError::Broken)));
    assert_eq!((cache.read(1), cache.discard().0), (Ok(5), 1));
}

#[test]
fn a_flush_makes_blocks_durable() {
    assert_eq!(many_pages(FileDevice::new(disk(), 300)).file().1, 1);
    assert_eq!(many_pages(HashedFileDevice::new(disk(), 300)).file().1, 1);
}

/// A device that lists its writes.
struct Listed([u64; 12], Vec<u64>);

impl BlockDevice<u64> for Listed {
    type Error = u32;
    fn has(&self, n: u64) -> bool {
        n < 12
    }
    fn read(&mut self, n: u64) -> std::result::Result<u64, u32> {
        Ok(self.0[n as usize])
    }
    fn write(&mut self, n: u64, block: &u64) -> std::result::Result<(), u32> {
        self.0[n as usize] = *block;
        self.1.push(n);
        Ok(())
    }
    fn sync(&mut self) -> std::result::Result<(), u32> {
        Ok(())
    }
}

/// A page as the model keeps it: its number and block, and whether it is dirty.
type Kept = (u64, u64, bool);

fn write_back(page: &mut Kept, blocks: &mut [u64; 12], writes: &mut Vec<u64>) {
    if page.2 {
        (blocks[page.0 as usize], page.2) = (page.1, false);
        writes.push(page.0);
    }
}

/// Compares random calls with a plain list of pages, newest first, and with the list of the writes.
#[test]
fn each_dirty_page_is_written_once_in_order() {
    let mut cache = PageCache::new(Listed([0; 12], Vec::new()), 4);
    let (mut pages, mut blocks, mut writes, mut random) = (Vec::<Kept>::new(), [0; 12], Vec::new(), 7u64);
    for call in 0..20_000u64 {
        random = random.wrapping_mul(6_364_136_223_846_793_005).wrapping_add(1_442_695_040_888_963_407);
        let (kind, n) = ((random >> 33) % 8, (random >> 40) % 12);
        let place = pages.iter().position(|page| page.0 == n);
        if kind < 6 {
            if place.is_none() && pages.len() == 4 {
                write_back(&mut pages.pop().unwrap(), &mut blocks, &mut writes);
            }
            let page = place.map_or((n, blocks[n as usize], false), |at| pages.remove(at));
            pages.insert(0, if kind < 2 { page } else { (n, call, true) });
            let shown = if kind < 2 { cache.read(n) } else { cache.write(n, call).map(|()| call) };
            assert_eq!(shown, Ok(pages[0].1));
        } else if kind < 7 {
            place.into_iter().for_each(|at| write_back(&mut pages[at], &mut blocks, &mut writes));
            assert_eq!(cache.flush_page(n), Ok(()));
        } else {
            let mut in_order: Vec<&mut Kept> = pages.iter_mut().collect();
            in_order.sort_by_key(|page| page.0);
            in_order.into_iter().for_each(|page| write_back(page, &mut blocks, &mut writes));
            assert_eq!(cache.flush(), Ok(()));
        }
        assert_eq!((&cache.device().0, &cache.device().1), (&blocks, &writes));
        assert_eq!(cache.dirty_len(), pages.iter().filter(|page| page.2).count());
    }
    assert!(writes.len() > 5000);
}
