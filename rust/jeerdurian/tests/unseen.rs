//! What no contract says: that rehashes of large tables find memory, and which memory a `try_insert` requests if no
//! growth is left.

mod refusing;

use jeerdurian::caches::{CountedMap, Counts, OrderedMap};
use jeerdurian::tenants::{Counting, TenantCache, TenantError, TenantPool};
use jeerdurian::{ByCost, ByLength, LruMap, More, UnlimitedCompact};
use refusing::refused;
use std::hash::{BuildHasher, Hasher};

/// Hashes a number to its quotient by 1,000.
#[derive(Clone, Copy, Default)]
struct Thousands(u64);

impl Hasher for Thousands {
    fn write(&mut self, bytes: &[u8]) {
        let mut number = [0; 8];
        number[..bytes.len()].copy_from_slice(bytes);
        self.0 = u64::from_le_bytes(number) / 1000;
    }

    fn finish(&self) -> u64 {
        self.0
    }
}

impl BuildHasher for Thousands {
    type Hasher = Self;

    fn build_hasher(&self) -> Self {
        *self
    }
}

/// A key whose hash is 28.
const OF_HASH_28: u64 = 28_000;

/// Fills 32 buckets with keys of hash 0, and removes all but `left` keys. The other buckets are deleted, and no growth
/// is left.
fn full_of_deleted_buckets(left: u64) -> LruMap<u64, u64, UnlimitedCompact, Thousands> {
    let mut map = LruMap::with_hasher(UnlimitedCompact, Thousands::default());
    (0..28).for_each(|n| assert!(map.insert(n, n)));
    (0..28 - left).for_each(|n| assert_eq!(map.remove(&n), Some(n)));
    assert_eq!(map.guaranteed_capacity(), map.len());
    map
}

/// If such a table is at most half full, it is rehashed, which requests links and control bytes. Otherwise it grows.
#[test]
fn a_try_insert_without_growth_left() {
    for (left, requests) in [(0, 0), (1, 2), (13, 2), (14, 3), (27, 3)] {
        for n in 1..=requests + 1 {
            let mut map = full_of_deleted_buckets(left);
            let (bytes, report) = (map.memory_usage(), map.move_report());
            let (result, was_refused) = refused(n, || map.try_insert(OF_HASH_28, 5));
            assert_eq!(was_refused, n <= requests, "{left} entries, request {n}");
            if was_refused {
                assert_eq!(result, Err((OF_HASH_28, 5)));
                assert_eq!((map.guaranteed_capacity(), map.memory_usage()), (left as usize, bytes));
                assert_eq!(map.move_report(), report);
                assert_eq!(map.try_insert(OF_HASH_28, 5), Ok(()));
            } else {
                assert_eq!(result, Ok(()));
            }
            assert!(map.keys().copied().eq([OF_HASH_28].into_iter().chain((28 - left..28).rev())));
            assert_eq!(map.guaranteed_capacity(), if left <= 13 { 28 } else { 56 });
        }
    }
}

const FORMS: u64 = 6;

fn insert<S: BuildHasher>(map: &mut LruMap<u64, u64, UnlimitedCompact, S>, form: u64, key: u64) -> bool {
    let make = || Ok::<_, ()>(5);
    match form {
        0 => map.insert(key, 5),
        1 => map.insert_with(key, 5, |_, _| {}),
        2 => map.insert_full(key, 5, |_, _| {}).kept,
        3 => map.get_or_insert(key, || 5).is_some(),
        4 => map.get_or_insert_fallible(key, make).is_ok_and(|it| it.is_some()),
        _ => map.fallible().get_or_insert(key, make).is_ok_and(|it| it.is_some()),
    }
}

/// Each form of an insert makes the same requests, and evicts nothing, whichever request is refused.
#[test]
fn inserts_without_growth_left() {
    for (left, requests) in [(0, 0), (1, 2), (13, 2), (14, 3), (27, 3)] {
        for case in 0..FORMS * (requests + 1) {
            let (form, n) = (case % FORMS, case / FORMS + 1);
            let mut map = full_of_deleted_buckets(left);
            let (is_kept, was_refused) = refused(n, || insert(&mut map, form, OF_HASH_28));
            assert_eq!((is_kept, was_refused), (n > requests, n <= requests), "{form}, {left} entries, request {n}");
            assert!(is_kept || map.keys().copied().eq((28 - left..28).rev()));
            assert!(insert(&mut map, form, OF_HASH_28));
            assert!(map.keys().copied().eq([OF_HASH_28].into_iter().chain((28 - left..28).rev())));
        }
    }
}

/// A counted insert that runs out of memory counts what it evicted, and nothing else.
#[test]
fn a_counted_insert_without_memory() {
    let mut map = LruMap::with_hasher(ByLength::new(28), Thousands::default());
    (0..28).for_each(|n| assert!(map.insert(n, n)));
    let mut counted = CountedMap::new(map);
    assert_eq!(refused(1, || counted.insert(OF_HASH_28, 5)), (false, true));
    assert_eq!((counted.take_counts(), counted.len()), (Counts { evictions: 1, ..Counts::default() }, 27));
    assert!(counted.insert(OF_HASH_28, 5));
    assert_eq!(counted.counts(), Counts { insertions: 1, ..Counts::default() });
}

/// A counted `put` that runs out of memory counts what it evicted, and returns `Memory`.
#[test]
fn a_counted_put_without_memory() {
    let mut cache: TenantCache<u64, u64, u64, Counting<ByCost>, _> = TenantCache::with_hasher(Thousands::default());
    assert_eq!(cache.open(1, 28), Ok(()));
    (0..28).for_each(|n| assert_eq!(cache.put(&1, n, 1), Ok(true)));
    assert_eq!(refused(1, || cache.put_counted(&1, OF_HASH_28, 1)), (Err(TenantError::Memory), true));
    assert_eq!(cache.take_counts(&1), Ok(Counts { evictions: 1, ..Counts::default() }));
    assert_eq!((cache.entries(&1), cache.put_counted(&1, OF_HASH_28, 1)), (Ok(27), Ok(true)));
    assert_eq!(cache.counts(&1), Ok(Counts { insertions: 1, ..Counts::default() }));
}

/// A counted `get_or_put` that runs out of memory also counts the miss, and calls its closure before.
#[test]
fn a_counted_get_or_put_without_memory() {
    let mut cache: TenantCache<u64, u64, u64, Counting<ByCost>, _> = TenantCache::with_hasher(Thousands::default());
    assert_eq!(cache.open(1, 28), Ok(()));
    (0..28).for_each(|n| assert_eq!(cache.put(&1, n, 1), Ok(true)));
    let mut made = 0;
    let mut make = || {
        made += 1;
        1
    };
    let got = refused(1, || cache.get_or_put_counted(&1, OF_HASH_28, &mut make).map(|it| it.copied()));
    assert_eq!(got, (Err(TenantError::Memory), true));
    assert_eq!(cache.take_counts(&1), Ok(Counts { misses: 1, evictions: 1, ..Counts::default() }));
    assert_eq!((cache.entries(&1), cache.get_or_put_counted(&1, OF_HASH_28, &mut make)), (Ok(27), Ok(Some(&1))));
    assert_eq!(cache.counts(&1), Ok(Counts { misses: 1, insertions: 1, ..Counts::default() }));
    assert_eq!(made, 2);
}

/// A pool that runs out of memory keeps its shares, and its total is still the sum of the costs.
#[test]
fn a_pool_without_memory() {
    let mut pool: TenantPool<u64, u64, u64, ByCost, _> = TenantPool::with_hasher(Thousands::default(), 28);
    assert_eq!(refused(1, || pool.open(1, 28)), (Err(TenantError::Memory), true));
    assert_eq!((pool.len(), pool.open(1, 28)), (0, Ok(())));
    (0..28).for_each(|n| assert_eq!(pool.put(&1, n, 1), Ok(true)));
    assert_eq!(refused(1, || pool.put(&1, OF_HASH_28, 1)), (Err(TenantError::Memory), true));
    assert_eq!((pool.cost(&1), pool.total_cost(), pool.put(&1, OF_HASH_28, 1)), (Ok(27), 27, Ok(true)));
}

/// Each form of an insert succeeds for any number of entries.
#[test]
fn inserts_of_many_entries() {
    for form in 0..FORMS {
        let mut map = LruMap::with_seed(UnlimitedCompact, [1, 2, 3, 4]);
        (0..100_000).for_each(|n| assert!(insert(&mut map, form, n)));
        assert!(map.keys().copied().eq((0..100_000).rev()));
    }
}

/// An insert into an ordered map, which calls `try_insert`, succeeds for any number of entries.
#[test]
fn an_insert_into_an_ordered_map_without_growth_left() {
    for (left, requests) in [(0, 0), (1, 2), (13, 2), (14, 3), (27, 3)] {
        for n in 1..=requests + 1 {
            let mut map = OrderedMap::with_hasher(Thousands::default());
            (0..28).for_each(|n| assert_eq!(map.insert(n, n), Ok(None)));
            (0..28 - left).for_each(|n| assert_eq!(map.remove(&n), Some(n)));
            let (result, was_refused) = refused(n, || map.insert(OF_HASH_28, 5));
            assert_eq!(was_refused, n <= requests, "{left} entries, request {n}");
            assert_eq!(result.is_err(), was_refused);
            if was_refused {
                assert!(map.keys().copied().eq(28 - left..28));
                assert_eq!(map.insert(OF_HASH_28, 5), Ok(None));
            }
            assert!(map.keys().copied().eq((28 - left..28).chain([OF_HASH_28])));
            assert_eq!(map.insert(OF_HASH_28, 6), Ok(Some(5)));
        }
    }
}

/// Uses an ordered map of at most 300 entries, most of which are removed again, until its table has been rehashed.
#[test]
fn an_ordered_map_in_which_keys_come_and_go() {
    let mut map = OrderedMap::new();
    for n in 0..100_000u64 {
        assert_eq!(map.insert(n, n), Ok(None));
        if n >= 300 {
            assert_eq!(map.pop_first(), Some((n - 300, n - 300)));
        }
    }
    assert!(map.keys().copied().eq(99_700..100_000));
}

struct Large {
    map: LruMap<u64, u64, UnlimitedCompact>,
    next: u64,
}

impl Large {
    /// A map of consecutive keys. Its table was filled until no growth was left, and is now less than half full.
    fn new(buckets: u64) -> Self {
        let full = buckets / 8 * 7;
        let mut map = LruMap::with_seed(UnlimitedCompact, [1, 2, 3, 4]);
        (0..full).for_each(|n| assert!(map.insert(n, n)));
        (0..full / 2 + full / 50).for_each(|_| assert!(map.pop_oldest().is_some()));
        Large { map, next: full }
    }

    fn growth_left(&self) -> usize {
        self.map.guaranteed_capacity() - self.map.len()
    }

    /// Inserts and pops until at most `left` growth is left.
    fn use_up(&mut self, left: usize) {
        while self.growth_left() > left {
            assert!(self.map.insert(self.next, self.next));
            assert!(self.map.pop_oldest().is_some());
            self.next += 1;
        }
    }

    /// Inserts and pops until `insert` rehashes the table, which leaves much growth.
    fn is_rehashed(&mut self, insert: impl Fn(&mut Self, u64)) {
        let (bytes, len) = (self.map.memory_usage(), self.map.len());
        self.use_up(0);
        for _ in 0..1000 {
            insert(self, self.next);
            self.next += 1;
            if self.growth_left() > len / 2 {
                break;
            }
            assert!(self.map.pop_oldest().is_some());
        }
        assert!(self.growth_left() > len / 2);
        assert_eq!((self.map.memory_usage(), self.map.len()), (bytes, len + 1));
        assert!(self.map.pop_oldest().is_some());
        self.check();
    }

    /// Fails unless the entries are the last keys that were inserted, and each is found.
    fn check(&self) {
        let len = self.map.len() as u64;
        assert!(
            self.map.iter().map(|(key, value)| (*key, *value)).eq((self.next - len..self.next).rev().map(|n| (n, n)))
        );
        assert!((self.next - len..self.next).all(|n| self.map.peek(&n) == Some(&n)));
        assert_eq!(self.map.peek(&(self.next - len - 1)), None);
    }
}

#[test]
fn large_tables_are_rehashed() {
    for buckets in [1 << 15, 1 << 17] {
        let mut large = Large::new(buckets);
        let (len, capacity) = (large.map.len() as u64, buckets as usize / 8 * 7);

        let moved = large.map.move_report().moved;
        large.is_rehashed(|it, n| assert!(it.map.insert(n, n)));
        assert_eq!(large.map.move_report().moved, moved + len);

        // A reservation rehashes, and its moves are not counted.
        large.is_rehashed(|it, n| assert_eq!(it.map.try_insert(n, n), Ok(())));
        assert_eq!(large.map.move_report().moved, moved + len);

        large.use_up(100);
        let bytes = large.map.memory_usage();
        assert_eq!(large.map.try_reserve(101), Ok(()));
        assert_eq!((large.map.guaranteed_capacity(), large.map.memory_usage()), (capacity, bytes));
        large.check();
    }
}
