//! Each request for memory is refused in turn: the entries and their order stay, and all memory is freed.

mod refusing;

use jeerdurian::caches::{FileDevice, Loader, Memo, OrderedMap, PageCache};
use jeerdurian::tenants::{ByteTenants, TenantCache, TenantPool};
use jeerdurian::trace::{Curve, report};
use jeerdurian::{ByLength, ByMemoryUsage, LruMap, More, ReserveError, Unlimited, UnlimitedCompact};
use refusing::{aligned, held, refused};
use std::cell::Cell;
use std::io::Cursor;

type Map = LruMap<u64, [u64; 2], UnlimitedCompact>;

/// A map of the keys from `holes` to `full`, whose table has no growth left.
fn filled(full: u64, holes: u64) -> Map {
    let mut map = Map::with_seed(UnlimitedCompact, [1, 2, 3, 4]);
    (0..full).for_each(|n| assert!(map.insert(n, [n; 2])));
    (0..holes).for_each(|n| assert!(map.remove(&n).is_some()));
    map
}

fn entries(map: &Map) -> Vec<(u64, [u64; 2])> {
    map.iter().map(|(k, v)| (*k, *v)).collect()
}

/// Refuses each request of a call in turn. `call` returns whether it succeeded; if so, it may have added one entry.
fn refuse_each(full: u64, holes: u64, requests: u64, call: impl Fn(&mut Map) -> bool) {
    for n in 1.. {
        let (bytes, alignments) = (held(), aligned());
        let mut map = filled(full, holes);
        let before = entries(&map);
        let (done, was_refused) = refused(n, || call(&mut map));
        assert_eq!(done, !was_refused, "request {n}");
        let after = entries(&map);
        assert_eq!(after[after.len() - before.len()..], before, "request {n}");
        assert!(map.insert(1000, [1; 2]) && map.peek(&1000) == Some(&[1; 2]));
        drop((map, before, after));
        assert_eq!((held(), aligned()), (bytes, alignments), "request {n}");
        if !was_refused {
            assert_eq!(n, requests + 1, "requests");
            return;
        }
    }
}

#[test]
fn an_insert_out_of_memory_returns_false_and_evicts_nothing() {
    refuse_each(14, 0, 3, |map| map.insert(500, [5; 2]));
    refuse_each(0, 0, 2, |map| map.insert(500, [5; 2]));
    refuse_each(56, 0, 3, |map| map.get_or_insert(500u64, || [5; 2]).is_some());
    refuse_each(14, 0, 3, |map| map.fallible().insert(500, [5; 2]).is_ok());
}

/// A new cache reserves memory for a small part of a large capacity, and for all of a small one.
#[cfg(feature = "lru")]
#[test]
fn a_new_cache_of_lru_reserves_little() {
    use jeerdurian::lru::LruCache;
    let bytes = held();
    let mut cache = LruCache::<u64, [u8; 4096]>::new(1_000_000);
    assert!(held() - bytes < 150_000);
    (0..100).for_each(|n| assert_eq!(cache.put(n, [0; 4096]), None));
    let mut small = LruCache::<u64, u64>::new(1000);
    let bytes = held();
    (0..1000).for_each(|n| assert_eq!(small.put(n, n), None));
    assert_eq!((held(), cache.len(), small.len()), (bytes, 100, 1000));
}

#[test]
fn a_new_map_and_its_copy_take_no_memory() {
    let made = refused(1, || (Map::new(UnlimitedCompact).clone().len(), LruMap::<u8, u8, _>::new(Unlimited).len()));
    assert_eq!(made, ((0, 0), false));
}

#[test]
fn new_caches_take_no_memory() {
    let device = FileDevice::<_, 8>::new(Cursor::new([0; 64]), 8);
    let (blocks, was_refused) = refused(1, || {
        drop((TenantCache::<u64, u64, u64>::new(), TenantPool::<u64, u64, u64>::new(9)));
        drop((ByteTenants::<u64, u64, u64>::new(9), OrderedMap::<u64, u64>::new()));
        drop(Memo::new(ByLength::new(9), |key: &u64| *key));
        drop(Loader::new(ByLength::new(9), |key: &u64| Ok::<_, ()>(*key)));
        PageCache::new(device, 8).discard().len()
    });
    assert_eq!((blocks, was_refused), (8, false));
}

#[test]
fn an_insert_passes_on_what_it_cannot_store() {
    let mut map = filled(14, 0);
    let mut lost = None;
    let (kept, _) = refused(1, || map.insert_with(500, [5; 2], |key, value| lost = Some((key, value))));
    assert_eq!((kept, lost, map.len()), (false, Some((500, [5; 2])), 14));
}

#[test]
fn reservations_and_shrinks_out_of_memory_change_nothing() {
    refuse_each(14, 0, 3, |map| map.try_reserve(100).is_ok());
    refuse_each(56, 50, 3, |map| map.shrink_to_fit());
    let mut map = filled(14, 0);
    assert_eq!(refused(1, || map.try_reserve(100)).0, Err(ReserveError::Memory));
    assert_eq!(map.try_reserve(usize::MAX), Err(ReserveError::TooLarge));
}

#[test]
fn a_try_insert_out_of_memory_returns_the_entry() {
    refuse_each(14, 0, 3, |map| map.try_insert(500, [5; 2]).is_ok());
}

#[test]
fn a_copy_out_of_memory_is_an_error() {
    refuse_each(14, 0, 2, |map| map.fallible().clone().is_ok());
}

#[test]
fn what_a_map_holds_is_its_memory_usage() {
    let bytes = held();
    let mut map: LruMap<u64, u64, ByMemoryUsage> = LruMap::with_memory_budget(100_000);
    for n in 0..10_000 {
        map.insert(n, n);
        assert_eq!(held() - bytes, map.memory_usage() as i64);
    }
    assert!(map.memory_usage() <= 100_000 && map.len() >= 896);
}

// A key, a value and two links side by side, so that the links fill the padding.
#[test]
fn an_entry_is_as_large_as_its_parts_side_by_side() {
    macro_rules! check {
        ($($key:ty, $value:ty, $one:expr;)*) => {$({
            let mut map: LruMap<$key, $value, ByLength> = LruMap::new(ByLength::new(3));
            let one: ($key, $value) = $one;
            map.insert(one.0, one.1);
            let entries = (4 * size_of::<($key, $value, u32, u32)>()).next_multiple_of(16);
            assert_eq!(map.memory_usage(), entries + 4 + 16, "{} {}", stringify!($key), stringify!($value));
        })*};
    }
    check! {
        u64, u64, (1, 2);
        u128, u32, (1, 2);
        u128, u64, (1, 2);
        u64, u128, (1, 2);
        u64, u8, (1, 2);
        u8, u64, (1, 2);
        u8, (), (1, ());
        String, [u8; 3], (String::new(), [0; 3]);
        (u128, u8), (u8, u128), ((1, 2), (3, 4));
    }
}

#[test]
fn each_form_that_may_fail_returns_its_error() {
    refuse_each(14, 0, 3, |map| map.fallible().insert_full(500, [5; 2], |_, _| {}).is_ok());
    refuse_each(14, 0, 3, |map| map.insert_full(500, [5; 2], |_, _| {}).kept);
    refuse_each(14, 0, 3, |map| map.fallible().get_or_insert(500u64, || Ok::<_, ()>([5; 2])).is_ok());
    refuse_each(56, 50, 3, |map| map.fallible().shrink_to_fit().is_ok());
}

/// Refuses each request of a call in turn. `call` returns whether it succeeded; a second try must succeed.
fn errs<T>(requests: u64, new: impl Fn() -> T, call: impl Fn(&mut T) -> bool) {
    for n in 1..=requests + 1 {
        let mut it = new();
        let (done, was_refused) = refused(n, || call(&mut it));
        assert_eq!((done, was_refused), (n > requests, n <= requests), "request {n}");
        assert!(call(&mut it), "after request {n}");
    }
}

/// A page cache of three pages, whose table has no growth left.
fn pages() -> PageCache<[u8; 8], FileDevice<Cursor<[u8; 64]>, 8>> {
    let mut cache = PageCache::new(FileDevice::new(Cursor::new([0; 64]), 8), 8);
    (0..3).for_each(|n| assert_eq!(cache.write(n, [n as u8; 8]), Ok(())));
    cache
}

#[test]
fn caches_out_of_memory_return_errors() {
    errs(4, pages, |cache| cache.write(3, [3; 8]).is_ok());
    errs(4, pages, |cache| cache.read(3).is_ok());
    errs(4, pages, |cache| cache.write_with(3, |block| block[0] = 3).is_ok());
    let map = || {
        let mut map = OrderedMap::new();
        (0..14u64).for_each(|n| assert_eq!(map.insert(n, n), Ok(None)));
        map
    };
    errs(3, map, |map| map.insert(14, 14).is_ok());
    errs(3, map, |map| map.try_reserve(1).is_ok());
    let half = || {
        let mut map = map();
        map.retain(|n, _| *n < 3);
        map
    };
    errs(3, half, |map| map.shrink_to_fit().is_ok());
    let tenants = || {
        let mut cache: TenantCache<u64, u64, u64> = TenantCache::new();
        (0..3).for_each(|n| assert_eq!(cache.open(n, 9), Ok(())));
        cache
    };
    errs(3, tenants, |cache| cache.open(3, 9).is_ok() || cache.contains(&3, &0).is_ok());
    errs(2, tenants, |cache| cache.put(&0, 1, 1).is_ok());
    errs(5, || Curve::new().unwrap(), |curve| curve.refer("a").is_ok());
}

/// Page caches that are closed or discarded; tenants that evict, and are closed or dropped; curves with repeated
/// references.
#[test]
fn caches_give_their_memory_back() {
    let bytes = held();
    for n in 0..100 {
        let cache = pages();
        assert!(if n % 2 == 0 { cache.close().is_ok() } else { cache.discard().len() == 8 });
    }
    let mut cache: TenantCache<String, String, u64> = TenantCache::new();
    for n in 0..1000 {
        assert_eq!(cache.open("a".into(), 2), Ok(()));
        (0..3).for_each(|key| assert_eq!(cache.put("a", key.to_string(), 1), Ok(true)));
        assert_eq!(cache.set_budget("a", 1), Ok(()));
        assert!(n == 999 || cache.close("a") == Ok(1));
        assert_eq!(cache.put("b", "1".into(), 1).is_err(), n < 1000);
    }
    drop(cache);
    let mut curve = Curve::new().unwrap();
    let mut refer = |count| (0..count).for_each(|n| assert_eq!(curve.refer(&(n % 500).to_string()), Ok(())));
    refer(5_000);
    let used = held();
    refer(200_000);
    assert_eq!(held(), used);
    drop(curve);
    assert_eq!(held(), bytes);
}

/// Refuses the requests for lines, keys, counts and texts.
#[test]
fn a_report_out_of_memory_returns_an_error() {
    let run = |n| refused(n, || report(&b"1 2\na\nb\na\n"[..], std::io::sink()));
    let last = (1..1000).take_while(|n| run(*n).1).inspect(|n| assert!(run(*n).0.is_err(), "request {n}")).count();
    assert!(last > 10 && run(last as u64 + 1).0.is_ok());
}

/// A map's `memory_usage` is what the map allocated, also with links of 64 bits.
#[test]
fn usage_counts_the_links() {
    type Long = LruMap<u32, u32, Unlimited>;
    let bytes = held();
    let mut map = Long::new(Unlimited);
    for n in 0..100 {
        assert!(map.insert(n, n));
        let usage = map.memory_usage();
        assert_eq!((held() - bytes, Long::memory_usage_for_memory_budget(usage)), (usage as i64, usage));
        assert!(Long::memory_usage_for_memory_budget(usage - 1) < usage);
    }
}

/// If a clone panics, what the copy allocated is freed.
#[test]
fn a_clone_that_panics_leaks_no_memory() {
    struct Item(#[allow(dead_code)] Box<u64>);
    thread_local!(static LEFT: Cell<u64> = const { Cell::new(0) });
    impl Clone for Item {
        fn clone(&self) -> Self {
            LEFT.set(LEFT.get() - 1);
            if LEFT.get() == 0 {
                std::panic::resume_unwind(Box::new(()));
            }
            Item(self.0.clone())
        }
    }
    let mut map = LruMap::new(UnlimitedCompact);
    (0..14u64).for_each(|n| assert!(map.insert(n, Item(Box::new(n)))));
    for n in 1..=14 {
        LEFT.set(n);
        let bytes = held();
        assert!(std::panic::catch_unwind(std::panic::AssertUnwindSafe(|| map.clone())).is_err());
        assert_eq!(held(), bytes, "clone {n}");
    }
}
