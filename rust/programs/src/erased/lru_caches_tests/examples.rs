// Erased from crates/lru_caches_tests/src/examples.rt: do not edit.
//! Written by `docs/examples.py` from the examples in the doc comments. Do not change it by hand.

#[allow(unused_imports)]
use crate::rattle_std::prelude::*;

use crate::erased::lru_caches::{
    BlockDevice, CountedMap, Counts, Durable, FileDevice, FileError, HashedFileDevice, Loader, Memo, MemoTable,
    OrderedMap, PageCache, Question, Unclosed,
};
use crate::erased::schnellru::{ByLength, LruMap, RandomState};
use crate::programs::lru_caches_tests::beginnings::{Map, refill, rewrite};
use crate::programs::lru_caches_tests::disk::{Disk, DiskError};
use crate::programs::test_helpers::{all, check};
use crate::programs::test_maps::is_pair;
use crate::rattle_std::cell::Cell;
use crate::rattle_std::io::Cursor;
use crate::rattle_std::test::Fail;

struct Squares;

impl Question<u64, u64> for Squares {}

#[test]
fn of_counted() {
    let run = |rt: HostRuntime| -> () {
        let mut counts = Counts::default();
        counts.count_look_up(true);
        check!(rt; (counts.hits, counts.misses) == (1, 0));
    };
    run(HostRuntime).passes();
}

#[test]
fn of_counted_2() {
    let run = |rt: HostRuntime| -> () {
        let mut counts = Counts::default();
        counts.count_look_up(false);
        check!(rt; counts.misses == 1);
    };
    run(HostRuntime).passes();
}

#[test]
fn of_counted_3() {
    let run = |rt: HostRuntime| -> () {
        let alloc = rt.alloc();
        let done: Result<bool, ()> = Ok(true);
        let mut counts = Counts::default();
        counts.count_insert(&done, 1);
        let held = (counts.insertions, counts.rejections, counts.evictions) == (1, 0, 1);
        let counted: CountedMap<u64, u64, ByLength> = CountedMap::new(LruMap::with_limiter(alloc, ByLength::new(3)));
        let held = held & all!(counted.map().is_empty());
        check!(rt; held);
    };
    run(HostRuntime).passes();
}

#[test]
fn of_counted_4() {
    let run = |rt: HostRuntime| -> () {
        let alloc = rt.alloc();
        let counted: CountedMap<u64, u64, ByLength> = CountedMap::new(LruMap::with_limiter(alloc, ByLength::new(3)));
        check!(rt; counted.into_map().is_empty());
    };
    run(HostRuntime).passes();
}

#[test]
fn of_device() {
    let run = |rt: HostRuntime| -> () {
        let calls_left = Cell::new(2);
        let mut disk = Disk::new([10, 11, 12, 13], [false; 4], &calls_left);
        let held = all!(
            disk.write(1, &20) == Ok(()),
            disk.read(1) == Ok(20),
            disk.read(1) == Err(DiskError),
            disk.sync() == Ok(())
        );
        check!(rt; held);
    };
    run(HostRuntime).passes();
}

#[test]
fn of_file_device_durable() {
    let run = |rt: HostRuntime| -> () {
        check!(rt; Cursor::new([0u8; 4]).make_durable().is_ok());
    };
    run(HostRuntime).passes();
}

#[test]
fn of_file_device_hashed() {
    let run = |rt: HostRuntime| -> Result<(), Fail> {
        let file = Cursor::new([0u8; 48]);
        let mut hashed: HashedFileDevice<_, 16> = HashedFileDevice::new(file, 3);
        let held = all!(
            hashed.write(1, b"uno.....checksum") == Ok(()),
            hashed.read(1)?.starts_with(b"uno....."),
            hashed.read(2) == Err(FileError::Damaged),
            HashedFileDevice::<_, 16>::open(Cursor::new([0u8; 48]))?.len() == 3,
            hashed.len() == 3,
            hashed.file().position() == 48
        );
        let bytes = hashed.into_file().into_inner();
        let held = held & all!((*at!(bytes, 16..)).starts_with(b"uno....."));
        check!(rt; held);
        Ok(())
    };
    run(HostRuntime).passes();
}

#[test]
fn of_file_device() {
    let run = |rt: HostRuntime| -> Result<(), Fail> {
        let file = Cursor::new(*b"zeroone.two.");
        let mut device: FileDevice<_, 4> = FileDevice::new(file, 3);
        let held = all!(
            device.write(1, b"uno.") == Ok(()),
            device.read(1) == Ok(*b"uno."),
            FileDevice::<_, 4>::open(Cursor::new(*b"zeroone.two.thr"))?.len() == 3,
            device.len() == 3,
            device.file().position() == 8
        );
        let bytes = device.into_file().into_inner();
        let held = held & all!(bytes.starts_with(b"zerouno."));
        check!(rt; held);
        Ok(())
    };
    run(HostRuntime).passes();
}

#[test]
fn of_memo_loader() {
    let run = |rt: HostRuntime| -> () {
        let alloc = rt.alloc();
        let disk = [10, 11, 12];
        let mut blocks = Loader::new(alloc, ByLength::new(9), |n: &usize| disk.get(*n).copied().ok_or(*n));
        let held = all!((blocks.load(1), blocks.len()) == (Ok(11), 1), (blocks.load(3), blocks.len()) == (Err(3), 1));
        let seeded = RandomState::with_seeds([5, 6, 7, 8]);
        let empty = Loader::with_hasher(alloc, ByLength::new(9), seeded, |n: &u64| n.checked_add(1).ok_or(*n));
        let held = held & all!(empty.is_empty());
        let mut texts = Loader::new(alloc, ByLength::new(9), |n: &usize| vec![in alloc; 7u8; *n].map_err(|_| *n));
        let held = held
            & all!(
                (texts.load_with(3, |text| text.len()), texts.len()) == (Ok(3), 1),
                blocks.load(1) == Ok(11) && blocks.remove(&1) && !blocks.remove(&1)
            );
        blocks.clear();
        check!(rt; held);
    };
    run(HostRuntime).passes();
}

#[test]
fn of_memo_table() {
    let run = |rt: HostRuntime| -> () {
        let alloc = rt.alloc();
        let mut squares = MemoTable::new(alloc, ByLength::new(9), Squares);
        squares.store(3, 9);
        let held = (squares.get(&3), squares.get(&4), squares.len()) == (Some(9), None, 1);
        let seeded = RandomState::with_seeds([5, 6, 7, 8]);
        let empty = MemoTable::with_hasher(alloc, ByLength::new(9), seeded, Squares);
        let held = held & all!(empty.is_empty(), squares.get_with(&3, |square| square.wrapping_add(1)) == Some(10));
        check!(rt; held);
    };
    run(HostRuntime).passes();
}

#[test]
fn of_memo() {
    let run = |rt: HostRuntime| -> Result<(), Fail> {
        let alloc = rt.alloc();
        let mut squares = Memo::new(alloc, ByLength::new(9), |n: &u64| n.wrapping_mul(*n));
        let held = (squares.answer(3), squares.len()) == (9, 1);
        let seeded = RandomState::with_seeds([5, 6, 7, 8]);
        let cubes = Memo::with_hasher(alloc, ByLength::new(9), seeded, |n: &u64| n.wrapping_pow(3));
        let held = held & all!(cubes.is_empty(), squares.limiter().max_length() == 9);
        squares.clear();
        let held = held & all!((squares.answer_full(3), squares.answer_full(3)) == ((9, true), (9, false)));
        let mut blocks = Memo::new(alloc, ByLength::new(9), |n: &usize| vec![in alloc; 7u8; *n].ok());
        let held = held & all!((blocks.answer_with(3, |block| block.is_some()), blocks.len()) == (true, 1));
        let mut lengths = Memo::new(alloc, ByLength::new(9), |text: &String| text.as_bytes().len());
        let held = held
            & all!(
                (lengths.get(&"word"), lengths.answer(String::from_str(alloc, "word")?)) == (None, 4),
                lengths.get(&"word") == Some(4)
            );
        let mut lists = Memo::new(alloc, ByLength::new(9), |n: &usize| vec![in alloc; 7u8; *n].ok());
        let held = held
            & all!(
                (lists.get_with(&3, |_| 1), lists.answer_with(3, |_| 2)) == (None, 2),
                lists.get_with(&3, |list| list.is_some()) == Some(true),
                (squares.answer(3), squares.answer(4)) == (9, 16),
                squares.set_limiter(ByLength::new(1)).max_length() == 9 && squares.len() == 1,
                squares.answer(3) == 9 && squares.remove(&3) && squares.is_empty()
            );
        check!(rt; held);
        Ok(())
    };
    run(HostRuntime).passes();
}

#[test]
fn of_ordered_map_into_entries() {
    let run = |rt: HostRuntime| -> () {
        let alloc = rt.alloc();
        let mut map: Map = OrderedMap::new(alloc);
        let held = refill(&mut map);
        let mut entries = map.into_iter();
        let held =
            held & all!((entries.len(), entries.next(), entries.next_back()) == (2, Some((1, 11)), Some((2, 20))));
        check!(rt; held);
    };
    run(HostRuntime).passes();
}

#[test]
fn of_ordered_map() {
    let run = |rt: HostRuntime| -> Result<(), Fail> {
        let alloc = rt.alloc();
        let mut map: OrderedMap<u64, u64> = OrderedMap::new(alloc);
        let held = all!(
            (map.insert(1, 10)?, map.insert(2, 20)?) == (None, None),
            map.insert(1, 11)? == Some(10),
            is_pair(map.first(), 1, 11) && is_pair(map.last(), 2, 20)
        );
        check!(rt; held);
        Ok(())
    };
    run(HostRuntime).passes();
}

#[test]
fn of_ordered_map_2() {
    let run = |rt: HostRuntime| -> () {
        let alloc = rt.alloc();
        let seeded = RandomState::with_seeds([5, 6, 7, 8]);
        let map: OrderedMap<u64, u64> = OrderedMap::with_hasher(alloc, seeded);
        check!(rt; map.is_empty());
    };
    run(HostRuntime).passes();
}

#[test]
fn of_page_cache() {
    let run = |rt: HostRuntime| -> () {
        let alloc = rt.alloc();
        let calls_left = Cell::new(100);
        let disk = Disk::new([10, 11, 12, 13], [false; 4], &calls_left);
        let mut cache = PageCache::new(alloc, disk, 2);
        let held =
            all!(cache.write(1, 20) == Ok(()), (cache.read(1), cache.len()) == (Ok(20), 1), cache.flush() == Ok(()));
        cache.discard();
        check!(rt; held);
    };
    run(HostRuntime).passes();
}

#[test]
fn of_page_cache_2() {
    let run = |rt: HostRuntime| -> () {
        let alloc = rt.alloc();
        let calls_left = Cell::new(100);
        let disk = Disk::new([10, 11, 12, 13], [false; 4], &calls_left);
        let seeded = RandomState::with_seeds([5, 6, 7, 8]);
        let mut cache = PageCache::with_hasher(alloc, disk, 2, seeded);
        let held = cache.is_empty();
        cache.discard();
        check!(rt; held);
    };
    run(HostRuntime).passes();
}

#[test]
fn of_page_cache_3() {
    let run = |rt: HostRuntime| -> () {
        let alloc = rt.alloc();
        let calls_left = Cell::new(100);
        let disk = Disk::new([10, 11, 12, 13], [false; 4], &calls_left);
        let mut cache = PageCache::new(alloc, disk, 2);
        let held = rewrite(&mut cache);
        let mut cache = match cache.close() {
            Ok(disk) => PageCache::new(alloc, disk, 2),
            Err(Unclosed { cache, error: _ }) => cache,
        };
        cache.discard();
        check!(rt; held);
    };
    run(HostRuntime).passes();
}
