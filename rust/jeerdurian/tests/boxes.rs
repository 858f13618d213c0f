//! Each block of a page cache is in a box of its own: tests what the boxes take, and that each box is freed.

mod refusing;

use jeerdurian::caches::{BlockDevice, PageCache, PageError};
use refusing::{aligned, held, most_held, refused, requests};
use std::hash::{BuildHasherDefault, DefaultHasher};
use std::panic::{AssertUnwindSafe, catch_unwind, resume_unwind};

const N: usize = 4096;

/// A device whose block n is full of the last byte of n. It panics instead of a read or a write of block 13.
struct Device;

fn no_13(n: u64) -> Result<(), ()> {
    if n == 13 { resume_unwind(Box::new(())) } else { Ok(()) }
}

impl BlockDevice<[u8; N]> for Device {
    type Error = ();
    fn has(&self, _: u64) -> bool {
        true
    }
    fn read(&mut self, n: u64) -> Result<[u8; N], ()> {
        no_13(n).map(|()| [n as u8; N])
    }
    fn write(&mut self, n: u64, _: &[u8; N]) -> Result<(), ()> {
        no_13(n)
    }
    fn sync(&mut self) -> Result<(), ()> {
        Ok(())
    }
}

type Cache = PageCache<[u8; N], Device, BuildHasherDefault<DefaultHasher>>;

/// A cache of the dirty pages from 100 on.
fn filled(pages: u64, capacity: usize) -> Cache {
    let mut cache = Cache::with_hasher(Device, capacity, BuildHasherDefault::default());
    (100..100 + pages).for_each(|n| assert_eq!(cache.write(n, [n as u8; N]), Ok(())));
    cache
}

#[test]
fn a_page_takes_little_more_than_its_block() {
    let bytes = held();
    let (mut cache, mut random) = (filled(0, 10_000), 7u64);
    for _ in 0..100_000 {
        random = random.wrapping_mul(6_364_136_223_846_793_005).wrapping_add(1_442_695_040_888_963_407);
        let n = 100 + (random >> 33) % 20_000;
        let (read, most) = most_held(|| cache.read_with(n, |block| block[N - 1]));
        assert_eq!(read, Ok(n as u8));
        assert!(most - bytes < 1000 + cache.len() as i64 * (N as i64 + 244));
    }
    assert_eq!(cache.len(), 10_000);
    assert!(held() - bytes < 10_000 * (N as i64 + 160));
    cache.discard();
    assert_eq!(held(), bytes);
}

/// The new block goes into the box of the evicted page. Only the table is rebuilt from time to time.
#[test]
fn a_full_cache_allocates_no_block() {
    let mut cache = filled(60, 60);
    let (bytes, mut all) = (held(), 0);
    for n in 200..10_200 {
        let call = |cache: &mut Cache| if n % 2 == 0 { cache.write(n, [5; N]) } else { cache.pin(n) };
        let (done, count) = requests(|| call(&mut cache));
        assert_eq!((done, cache.unpin(n)), (Ok(()), n % 2 != 0));
        assert!(held() - bytes < 2 * N as i64);
        all += count;
    }
    assert_eq!((all < 100, cache.len(), cache.evictions()), (true, 60, 10_000));
    assert_eq!((cache.read(10_198), cache.read(10_199)), (Ok([5; N]), Ok([10_199u64 as u8; N])));
}

/// Makes page 50 the newest.
type Use = fn(&mut Cache) -> Result<(), PageError<()>>;

const USES: [Use; 4] = [
    |cache| cache.read(50).map(|_| ()),
    |cache| cache.write(50, [50; N]),
    |cache| cache.write_with(50, |_| ()),
    |cache| cache.pin(50),
];

/// Refuses each request of a call in turn, also if the next page makes the table grow.
#[test]
fn a_call_out_of_memory_changes_nothing() {
    for (pages, call) in [0, 1, 3, 8, 14, 16, 28, 32].into_iter().flat_map(|pages| USES.map(|call| (pages, call))) {
        for request in 1.. {
            let bytes = (held(), aligned());
            let mut cache = filled(pages, 100);
            let (done, was_refused) = refused(request, || call(&mut cache));
            if !was_refused {
                assert!(done == Ok(()) && request > 1);
                break;
            }
            assert_eq!((done, cache.contains(50)), (Err(PageError::Memory), false));
            let counts = (cache.hits(), cache.misses(), cache.evictions());
            assert_eq!((cache.len() as u64, cache.dirty_len() as u64, counts), (pages, pages, (0, pages, 0)));
            (100..100 + pages).for_each(|n| assert_eq!(cache.read(n), Ok([n as u8; N])));
            assert_eq!((call(&mut cache), cache.read(50)), (Ok(()), Ok([50; N])));
            cache.discard();
            assert_eq!((held(), aligned()), bytes, "request {request}");
        }
    }
}

/// Calls `f`, which panics.
fn panics<R>(cache: &mut Cache, f: impl FnOnce(&mut Cache) -> R) {
    assert!(catch_unwind(AssertUnwindSafe(|| f(cache))).is_err());
}

#[test]
fn a_panic_leaks_no_box() {
    for ends in [|cache| drop(cache), |cache: Cache| _ = cache.discard(), |cache: Cache| assert!(cache.close().is_ok())]
    {
        let bytes = (held(), aligned());
        let mut cache = filled(3, 3);
        panics(&mut cache, |cache| cache.read_with(101, |_| resume_unwind(Box::new(()))));
        panics(&mut cache, |cache| cache.read_with(50, |_| resume_unwind(Box::new(()))));
        panics(&mut cache, |cache| {
            cache.write_with(51, |block| {
                block[0] = 1;
                resume_unwind(Box::new(()))
            })
        });
        assert_eq!((cache.len(), cache.dirty_len(), cache.contains(101)), (3, 2, true));
        assert_eq!((cache.read(51).map(|block| block[..2].to_vec()), cache.read(50)), (Ok(vec![1, 51]), Ok([50; N])));
        // The device panics in the read of the block, and in the write of the page that is to be evicted.
        panics(&mut cache, |cache| cache.read(13));
        assert_eq!((cache.write(13, [1; N]), cache.read(60), cache.read(61)), (Ok(()), Ok([60; N]), Ok([61; N])));
        panics(&mut cache, |cache| cache.read(62));
        assert_eq!((cache.len(), cache.read(13), cache.contains(62)), (3, Ok([1; N]), false));
        assert_eq!((cache.write(60, [2; N]), cache.read(61)), (Ok(()), Ok([61; N])));
        cache.write_with(13, |block| *block = [3; N]).unwrap();
        cache = without_13(cache);
        ends(cache);
        assert_eq!((held(), aligned()), bytes);
    }
}

/// A new cache of the same device, since the flush of page 13 panics.
fn without_13(cache: Cache) -> Cache {
    let mut cache = Cache::with_hasher(cache.discard(), 3, BuildHasherDefault::default());
    assert_eq!((cache.write(1, [1; N]), cache.read(2)), (Ok(()), Ok([2; N])));
    cache
}

/// Blocks of no bytes, and blocks that lie at multiples of 4 KiB.
#[test]
fn boxes_fit_their_blocks() {
    #[derive(Clone, Copy, Debug, PartialEq)]
    #[repr(align(4096))]
    struct Aligned(u8);
    struct Same<B>(B);
    impl<B: Copy> BlockDevice<B> for Same<B> {
        type Error = ();
        fn has(&self, _: u64) -> bool {
            true
        }
        fn read(&mut self, _: u64) -> Result<B, ()> {
            Ok(self.0)
        }
        fn write(&mut self, _: u64, block: &B) -> Result<(), ()> {
            self.0 = *block;
            Ok(())
        }
        fn sync(&mut self) -> Result<(), ()> {
            Ok(())
        }
    }
    let bytes = (held(), aligned());
    let (mut empty, mut large) = (PageCache::new(Same(()), 9), PageCache::new(Same(Aligned(7)), 9));
    for n in 0..20 {
        assert_eq!((empty.read(n), large.read(n)), (Ok(()), Ok(Aligned(7))));
        let address = large.read_with(n, |block| std::ptr::from_ref(block).addr());
        assert_eq!(address.map(|address| address % 4096), Ok(0));
    }
    assert_eq!((empty.write(3, ()), large.write(3, Aligned(8)), large.flush()), (Ok(()), Ok(()), Ok(())));
    assert_eq!((empty.close().is_ok(), large.discard().0), (true, Aligned(8)));
    assert_eq!((held(), aligned()), bytes);
}
