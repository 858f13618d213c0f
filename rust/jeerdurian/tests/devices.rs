//! What no contract says about page caches and file devices: which calls a device makes on its file, and a cache on its
//! device; which errors they return; and how much memory a cache takes.

mod refusing;

use jeerdurian::caches::{
    BlockDevice, Durable, FileDevice, FileError, HashedFileDevice, PageCache, PageError, with_cache,
};
use jeerdurian::{LruMap, UnlimitedCompact};
use refusing::held;
use std::cell::{Cell, RefCell};
use std::collections::BTreeMap;
use std::io::{ErrorKind, Read, Result, Seek, SeekFrom, Write};
use std::panic::{AssertUnwindSafe, catch_unwind};

#[derive(Clone, Copy, Debug, PartialEq)]
enum Call {
    Seek(SeekFrom),
    Read(usize),
    Write(usize),
    Flush,
    Sync,
}

/// A file that lists its calls. It contains the written bytes, at any offset.
#[derive(Default)]
struct Listed {
    bytes: BTreeMap<u64, u8>,
    at: u64,
    /// The number that a seek to the end returns.
    len: u64,
    /// How many bytes a read or a write moves at most.
    most: usize,
    /// The next call that equals this call fails, once.
    fails: Option<Call>,
    calls: RefCell<Vec<Call>>,
}

impl Listed {
    fn new(most: usize) -> Self {
        Listed { most, ..Listed::default() }
    }

    fn note(&mut self, call: Call) -> Result<()> {
        self.calls.borrow_mut().push(call);
        if self.fails != Some(call) {
            return Ok(());
        }
        self.fails = None;
        Err(ErrorKind::Other.into())
    }

    /// Returns the calls since the last `take`.
    fn take(&self) -> Vec<Call> {
        self.calls.take()
    }
}

impl Read for Listed {
    fn read(&mut self, bytes: &mut [u8]) -> Result<usize> {
        self.note(Call::Read(bytes.len()))?;
        let places = (self.at..).take(bytes.len().min(self.most));
        let found: Vec<u8> = places.map_while(|at| self.bytes.get(&at).copied()).collect();
        bytes[..found.len()].copy_from_slice(&found);
        self.at += found.len() as u64;
        Ok(found.len())
    }
}

impl Write for Listed {
    fn write(&mut self, bytes: &[u8]) -> Result<usize> {
        self.note(Call::Write(bytes.len()))?;
        let count = bytes.len().min(self.most);
        self.bytes.extend((self.at..).zip(bytes[..count].iter().copied()));
        self.at += count as u64;
        Ok(count)
    }

    fn flush(&mut self) -> Result<()> {
        self.note(Call::Flush)
    }
}

impl Seek for Listed {
    fn seek(&mut self, to: SeekFrom) -> Result<u64> {
        self.note(Call::Seek(to))?;
        self.at = if let SeekFrom::Start(at) = to { at } else { self.len };
        Ok(self.at)
    }
}

impl Durable for Listed {
    fn make_durable(&mut self) -> Result<()> {
        self.note(Call::Sync)
    }
}

/// Numbers of blocks of 16 bytes whose offsets a file can have.
const PLACES: [u64; 8] = [0, 1, 999, 20_001, 1 << 28, (1 << 32) + 5, 1 << 52, (1 << 60) - 2];

/// Writes and reads blocks. Each call seeks the place of its block once, and then moves the block once.
fn calls_are_at_their_places<D: BlockDevice<[u8; 16], Error = FileError>>(mut device: D, file: fn(&D) -> &Listed) {
    for n in PLACES {
        let seek = Call::Seek(SeekFrom::Start(n * 16));
        assert_eq!(device.write(n, &[n as u8; 16]), Ok(()));
        assert_eq!(file(&device).take(), [seek, Call::Write(16)]);
        assert_eq!(device.read(n).unwrap()[..8], [n as u8; 8], "block {n}");
        assert_eq!(file(&device).take(), [seek, Call::Read(16)]);
    }
    for n in [1 << 60, (1 << 60) + 1, u64::MAX - 1] {
        assert_eq!((device.read(n), device.write(n, &[9; 16])), (Err(FileError::File), Err(FileError::File)));
        assert_eq!(file(&device).take(), []);
    }
}

#[test]
fn each_block_is_moved_once_at_its_place() {
    let file = || Listed::new(usize::MAX);
    calls_are_at_their_places(FileDevice::<_, 16>::new(file(), u64::MAX), |it| it.file());
    calls_are_at_their_places(HashedFileDevice::<_, 16>::new(file(), u64::MAX), |it| it.file());
}

/// If a file moves few bytes in a call, blocks are whole nevertheless. If the file lacks a part of a block, or a seek,
/// read or write fails, the call fails with `File`, and is not made again.
fn calls_fail_with_their_file<D: BlockDevice<[u8; 16], Error = FileError>>(
    new: fn(Listed) -> D,
    file: fn(&D) -> &Listed,
) {
    for most in 1..=16 {
        let mut device = new(Listed::new(most));
        (0..9).for_each(|n| assert_eq!(device.write(n, &[n as u8; 16]), Ok(())));
        (0..9).for_each(|n| assert_eq!(device.read(n).unwrap()[..8], [n as u8; 8]));
        assert_eq!(device.read(9), Err(FileError::File));
    }
    for seen in [0, 1, 8, 15] {
        let bytes = (0..seen).map(|at| (at, 0)).collect();
        assert_eq!(new(Listed { bytes, ..Listed::new(16) }).read(0), Err(FileError::File));
    }
    let seek = Call::Seek(SeekFrom::Start(0));
    for fails in [seek, Call::Read(16), Call::Write(16)] {
        let mut device = new(Listed { fails: Some(fails), ..Listed::new(16) });
        let failed = if fails == Call::Read(16) { device.read(0).err() } else { device.write(0, &[1; 16]).err() };
        assert_eq!((failed, file(&device).take().last()), (Some(FileError::File), Some(&fails)));
        assert!(file(&device).bytes.is_empty() && device.is_usable());
    }
}

#[test]
fn blocks_are_moved_whole_or_fail() {
    calls_fail_with_their_file(|file| FileDevice::<_, 16>::new(file, 99), |it| it.file());
    calls_fail_with_their_file(|file| HashedFileDevice::<_, 16>::new(file, 99), |it| it.file());
}

/// A block with a changed byte is damaged, and so is a block in the place of another block.
#[test]
fn a_block_without_its_checksum_is_damaged() {
    let mut device = HashedFileDevice::<_, 16>::new(Listed::new(16), 1 << 40);
    (0..18).for_each(|n| assert_eq!(device.write(n, &[n as u8; 16]), Ok(())));
    let mut file = device.into_file();
    for at in 0..16 {
        *file.bytes.get_mut(&(at * 16 + at)).unwrap() ^= 1;
        for n in [18, 1 << 32] {
            file.bytes.insert(n * 16 + at, file.bytes[&(17 * 16 + at)]);
        }
    }
    let mut device = HashedFileDevice::<_, 16>::new(file, 1 << 40);
    for n in (0..16).chain([18, 1 << 32]) {
        assert_eq!(device.read(n), Err(FileError::Damaged), "block {n}");
    }
    (16..18).for_each(|n| assert_eq!(device.read(n).unwrap()[..8], [n as u8; 8]));
}

/// A sync flushes the file, and then makes it durable. After one of these calls failed, the device makes no more calls.
/// A new cache over this device is broken, too.
#[test]
fn a_sync_that_fails_is_the_last_call() {
    for (fails, calls) in [(None, 2), (Some(Call::Flush), 1), (Some(Call::Sync), 2)] {
        let mut device = FileDevice::<_, 16>::new(Listed { fails, ..Listed::new(16) }, 9);
        assert_eq!(device.sync().is_ok(), fails.is_none());
        assert_eq!(device.file().take(), [Call::Flush, Call::Sync][..calls]);
        assert_eq!((device.is_usable(), device.sync().is_ok()), (fails.is_none(), fails.is_none()));
        assert_eq!(device.file().take().len(), if fails.is_none() { 2 } else { 0 });
        let mut cache = PageCache::new(device, 9);
        assert_eq!(cache.write(1, [1; 16]).err(), fails.map(|_| PageError::Broken));
        cache.discard();
        let mut hashed = HashedFileDevice::<_, 16>::new(Listed { fails, ..Listed::new(16) }, 9);
        assert_eq!((hashed.sync().is_ok(), hashed.is_usable()), (fails.is_none(), fails.is_none()));
        assert_eq!(hashed.file().take(), [Call::Flush, Call::Sync][..calls]);
    }
}

/// A `File` is made durable by the system, which refuses to sync the null device.
#[test]
#[cfg(target_os = "linux")]
fn a_file_is_made_durable_by_the_system() {
    let mut file = std::fs::File::open("/dev/null").unwrap();
    let kind = file.sync_data().map_err(|e| e.kind());
    assert_eq!(file.make_durable().map_err(|e| e.kind()), kind);
}

#[test]
fn open_counts_the_whole_blocks() {
    for len in [0, 15, 16, 17, 31, (1 << 20) + 15, (1 << 20) + 16, (1 << 32) - 1, (1 << 36) + 7, u64::MAX] {
        let file = || Listed { len, ..Listed::new(16) };
        let device = FileDevice::<_, 16>::open(file()).unwrap();
        assert_eq!((device.len(), device.file().take()), (len / 16, vec![Call::Seek(SeekFrom::End(0))]));
        assert_eq!(HashedFileDevice::<_, 16>::open(file()).unwrap().len(), len / 16);
        assert_eq!(FileDevice::<_, 4096>::open(file()).unwrap().len(), len / 4096);
        assert!(FileDevice::<_, 0>::open(file()).is_err_and(|e| e == FileError::File));
    }
    let fails = Some(Call::Seek(SeekFrom::End(0)));
    assert!(FileDevice::<_, 16>::open(Listed { fails, ..Listed::new(16) }).is_err_and(|e| e == FileError::File));
}

/// A device of blocks that are their numbers. It counts its reads, writes and syncs. Reads and writes of 7 fail.
#[derive(Default)]
struct Counted(Cell<[u32; 3]>);

impl Counted {
    fn count(&self, kind: usize) {
        let mut counts = self.0.get();
        counts[kind] += 1;
        self.0.set(counts);
    }
}

impl BlockDevice<u64> for Counted {
    type Error = u64;
    fn has(&self, n: u64) -> bool {
        n < 1 << 20
    }
    fn read(&mut self, n: u64) -> std::result::Result<u64, u64> {
        self.count(0);
        if n == 7 { Err(n) } else { Ok(n) }
    }
    fn write(&mut self, n: u64, _block: &u64) -> std::result::Result<(), u64> {
        self.count(1);
        if n == 7 { Err(n) } else { Ok(()) }
    }
    fn sync(&mut self) -> std::result::Result<(), u64> {
        self.count(2);
        Ok(())
    }
}

/// A cache reads a block once if its page is not cached, and writes a block once if it is dirty and has to go.
#[test]
fn a_cache_calls_its_device_only_if_it_has_to() {
    let mut cache = PageCache::new(Counted::default(), 2);
    let mut calls = |call: &mut dyn FnMut(&mut PageCache<u64, Counted>)| {
        call(&mut cache);
        cache.device().0.take()
    };
    assert_eq!(calls(&mut |it| assert_eq!(it.read(0), Ok(0))), [1, 0, 0]);
    assert_eq!(calls(&mut |it| assert_eq!((it.read(0), it.pin(0), it.unpin(0)), (Ok(0), Ok(()), true))), [0, 0, 0]);
    assert_eq!(calls(&mut |it| assert_eq!((it.write(1, 5), it.write(1, 6)), (Ok(()), Ok(())))), [0, 0, 0]);
    assert_eq!(calls(&mut |it| assert_eq!(it.read(7), Err(PageError::Device(7)))), [1, 0, 0]);
    assert_eq!(calls(&mut |it| assert_eq!(it.write_with(2, |block| *block), Ok(2))), [1, 0, 0]);
    assert_eq!(calls(&mut |it| assert_eq!(it.pin(3), Ok(()))), [1, 1, 0]);
    assert_eq!(calls(&mut |it| assert_eq!(it.prefetch(2..2), Ok(()))), [0, 0, 0]);
    assert_eq!(calls(&mut |it| assert_eq!(it.prefetch(4..9), Err(PageError::Device(7)))), [4, 1, 0]);
    assert_eq!(calls(&mut |it| assert_eq!(it.flush_page(3), Ok(()))), [0, 0, 0]);
    assert_eq!(calls(&mut |it| assert_eq!((it.prefetch(20..520), it.hits()), (Ok(()), 3))), [500, 0, 0]);
    assert_eq!(calls(&mut |it| assert_eq!((it.write(9, 9), it.flush()), (Ok(()), Ok(())))), [0, 1, 1]);
    assert_eq!(calls(&mut |it| assert_eq!(it.flush(), Ok(()))), [0, 0, 1]);
    assert_eq!(
        calls(&mut |it| assert_eq!((it.write(7, 8), it.flush()), (Ok(()), Err(PageError::Device(7))))),
        [0, 1, 0]
    );
    let unclosed = cache.close().err().unwrap();
    assert_eq!((unclosed.error, unclosed.cache.dirty_len()), (PageError::Device(7), 1));
    assert_eq!(unclosed.cache.discard().0.get(), [0, 1, 0]);
}

/// While memory lasts, calls succeed for any number of pages. In addition to its entry in the map, each page takes 8
/// bytes for its block, and 8 to 16 bytes for its number.
#[test]
fn caches_of_many_pages() {
    let bytes = held();
    let (mut cache, mut map) = (PageCache::new(Counted::default(), 1 << 20), LruMap::new(UnlimitedCompact));
    for n in 0..100_000u64 {
        let page = n + 8;
        assert!(if n % 2 == 0 { cache.write(page, n) } else { cache.read(page).map(|_| ()) } == Ok(()), "page {page}");
        assert!(map.insert(page, (n, false, false)));
        let more = held() - bytes - 2 * map.memory_usage() as i64;
        assert!((n as i64 * 16..=n as i64 * 24 + 1024).contains(&more), "{more} bytes for {n} pages");
    }
    assert_eq!((cache.len(), cache.dirty_len(), cache.flush()), (100_000, 50_000, Ok(())));
    cache.discard();
    drop(map);
    assert_eq!(held(), bytes);
}

#[test]
fn a_page_is_dirty_if_its_closure_panics() {
    let mut cache = PageCache::new(Counted::default(), 2);
    let written = catch_unwind(AssertUnwindSafe(|| {
        cache.write_with(1, |block| {
            *block = 5;
            std::panic::resume_unwind(Box::new(()));
        })
    }));
    assert!(written.is_err());
    assert_eq!((cache.read(1), cache.dirty_len(), cache.flush()), (Ok(5), 1, Ok(())));
    assert_eq!(cache.discard().0.get(), [1, 1, 1]);
}

/// If the work panics, the cache and its device are dropped.
#[test]
fn a_cache_is_dropped_if_its_work_panics() {
    let bytes = held();
    let work = |cache: &mut PageCache<u64, Counted>| -> Option<u64> {
        assert_eq!(cache.write(1, 5), Ok(()));
        std::panic::resume_unwind(Box::new(()));
    };
    assert!(catch_unwind(AssertUnwindSafe(|| with_cache(Counted::default(), 9, work))).is_err());
    assert_eq!(held(), bytes);
}

/// A file, or a device of one block, whose first sync panics.
struct Panics<T>(T, bool);

impl<T> Panics<T> {
    fn sync(&mut self) {
        assert!(std::mem::replace(&mut self.1, true), "the sync panics");
    }
}

impl<T: Read> Read for Panics<T> {
    fn read(&mut self, bytes: &mut [u8]) -> Result<usize> {
        self.0.read(bytes)
    }
}

impl<T: Write> Write for Panics<T> {
    fn write(&mut self, bytes: &[u8]) -> Result<usize> {
        self.0.write(bytes)
    }

    fn flush(&mut self) -> Result<()> {
        self.0.flush()
    }
}

impl<T: Seek> Seek for Panics<T> {
    fn seek(&mut self, to: SeekFrom) -> Result<u64> {
        self.0.seek(to)
    }
}

impl<T> Durable for Panics<T> {
    fn make_durable(&mut self) -> Result<()> {
        self.sync();
        Ok(())
    }
}

impl BlockDevice<u8> for Panics<u8> {
    type Error = ();

    fn has(&self, n: u64) -> bool {
        n < 2
    }

    fn read(&mut self, _: u64) -> std::result::Result<u8, ()> {
        Ok(self.0)
    }

    fn write(&mut self, _: u64, block: &u8) -> std::result::Result<(), ()> {
        self.0 = *block;
        Ok(())
    }

    fn sync(&mut self) -> std::result::Result<(), ()> {
        Panics::sync(self);
        Ok(())
    }
}

fn fails_after_a_panic<D: BlockDevice<[u8; 16], Error = FileError>>(mut device: D) {
    assert_eq!((device.write(1, &[7; 16]), device.is_usable()), (Ok(()), true));
    assert!(catch_unwind(AssertUnwindSafe(|| device.sync())).is_err() && !device.is_usable());
    assert_eq!((device.sync(), device.read(1)), (Err(FileError::File), Err(FileError::File)));
    assert_eq!(device.write(1, &[7; 16]), Err(FileError::File));
}

#[test]
fn a_sync_that_panics_has_failed() {
    std::panic::set_hook(Box::new(|_| {}));
    let file = || Panics(Listed::new(usize::MAX), false);
    fails_after_a_panic(FileDevice::<_, 16>::new(file(), 4));
    fails_after_a_panic(HashedFileDevice::<_, 16>::new(file(), 4));
    let mut cache = PageCache::new(Panics(0u8, false), 4);
    assert_eq!(cache.write(0, 7), Ok(()));
    assert!(catch_unwind(AssertUnwindSafe(|| cache.flush())).is_err());
    assert_eq!((cache.flush(), cache.write(0, 8)), (Err(PageError::Broken), Err(PageError::Broken)));
    assert_eq!((cache.read(0), cache.read(1)), (Ok(7), Err(PageError::Broken)));
}
