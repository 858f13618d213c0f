//! How often calls hash a key. No contract says this.

use jeerdurian::caches::{CountedMap, FileDevice, PageCache};
use jeerdurian::tenants::{ByteTenants, Counting, TenantCache};
use jeerdurian::{ByCost, LruMap, More, UnlimitedCompact, Updated};
use std::cell::Cell;
use std::io::Cursor;

#[test]
fn a_key_is_hashed_once_by_an_insert_and_compared_once() {
    thread_local! {
        static HASHED: Cell<u32> = const { Cell::new(0) };
        static COMPARED: Cell<u32> = const { Cell::new(0) };
    }
    struct Key(u64);
    impl std::hash::Hash for Key {
        fn hash<H: std::hash::Hasher>(&self, hasher: &mut H) {
            HASHED.set(HASHED.get() + 1);
            self.0.hash(hasher);
        }
    }
    impl PartialEq for Key {
        fn eq(&self, other: &Self) -> bool {
            COMPARED.set(COMPARED.get() + 1);
            self.0 == other.0
        }
    }
    let mut map: LruMap<Key, u8> = LruMap::with_seed(jeerdurian::ByLength::new(100), [1, 2, 3, 4]);
    map.reserve_or_panic(100);
    for n in 0..100 {
        assert!(map.insert(Key(n), 1));
    }
    assert_eq!(HASHED.get(), 100);
    COMPARED.set(0);
    assert!(map.insert(Key(7), 2));
    assert_eq!(HASHED.get(), 101);
    assert!(map.remove(&Key(7)) == Some(2));
    assert_eq!((HASHED.get(), COMPARED.get()), (102, 2));
    let mut entry = map.find_entry(&Key(8)).unwrap();
    entry.promote();
    assert_eq!((entry.key().0, *entry.get(), entry.remove()), (8, 1, 1));
    assert_eq!((HASHED.get(), COMPARED.get()), (103, 3));
}

/// A hasher that counts how often it is built.
#[derive(Default)]
struct Builds(Cell<u64>);

impl std::hash::BuildHasher for Builds {
    type Hasher = Itself;

    fn build_hasher(&self) -> Itself {
        self.0.set(self.0.get() + 1);
        Itself(0)
    }
}

/// Hashes a number to itself, so that keys in a row lie next to one another.
struct Itself(u64);

impl std::hash::Hasher for Itself {
    fn write(&mut self, _: &[u8]) {}

    fn write_u64(&mut self, number: u64) {
        self.0 = number;
    }

    fn finish(&self) -> u64 {
        self.0
    }
}

/// Each call hashes its key once, and each move of an entry, which the report counts, once more.
#[test]
fn calls_and_moves_hash_once() {
    let mut map = LruMap::with_hasher(UnlimitedCompact, Builds::default());
    (1..=6).for_each(|n| assert!(map.insert(n, n)));
    map.hasher().0.set(0);
    let found = [map.insert(1, 0), map.get(&2).is_some(), map.peek(&3).is_some(), map.remove(&4).is_some()];
    let moved = [map.contains(&5), map.get_or_insert(5, || 0).is_some(), map.promote(&5), map.demote(&6)];
    let taken = [map.remove_entry(&5).is_some(), matches!(map.update(6, 0), Updated::Replaced(_))];
    let others = [map.get_key_value(&6).is_some(), map.get_index_of(&6).is_some(), map.try_insert(8, 0).is_ok()];
    let fails = map.get_or_insert_fallible(4, || Err::<u64, _>(0)).is_err();
    let next = [map.peek_older(&1).is_some(), map.peek_newer(&1).is_some()];
    assert!(found.into_iter().chain(moved).chain(taken).chain(others).chain(next).all(|it| it) && fails);
    assert_eq!(map.hasher().0.replace(0), 16);
    let before = map.move_report().moved;
    for key in 1000..3000 {
        map.insert(key, key);
        map.remove(&(key - 40));
    }
    let moved = map.move_report().moved - before;
    assert!(moved > 500);
    assert_eq!(map.hasher().0.get(), moved + 4000);
    let mut large = LruMap::with_hasher(UnlimitedCompact, Builds::default());
    (0..3u64).for_each(|n| assert!(large.insert(n, [n; 32])));
    assert_eq!(large.hasher().0.get(), 3);
}

/// A hasher that shares its count.
#[derive(Clone, Copy)]
struct Shared<'a>(&'a Builds);

impl std::hash::BuildHasher for Shared<'_> {
    type Hasher = Itself;

    fn build_hasher(&self) -> Itself {
        self.0.build_hasher()
    }
}

/// A hit and a miss of a page cache hash the number of their page once. An eviction finds its page twice.
#[test]
fn a_page_cache_hashes_the_number_of_a_page_once() {
    let builds = Builds::default();
    let device = FileDevice::<_, 4>::new(Cursor::new(vec![0; 40]), 10);
    let mut cache = PageCache::with_hasher(device, 2, Shared(&builds));
    for (n, hashes) in [(0, 1), (1, 1), (1, 1), (2, 3), (2, 1)] {
        assert_eq!((cache.read(n), builds.0.replace(0)), (Ok([0; 4]), hashes));
        assert_eq!((cache.write(n, [0; 4]), builds.0.replace(0)), (Ok(()), 1));
    }
    assert_eq!((cache.write(5, [0; 4]), builds.0.replace(0)), (Ok(()), 3));
    cache.discard();
}

/// A call of a map that counts hashes its key once, and a call on a tenant's key hashes the name and the key once.
#[test]
fn counted_maps_and_tenants_hash_once() {
    let builds = Builds::default();
    let mut counted = CountedMap::new(LruMap::with_hasher(UnlimitedCompact, Shared(&builds)));
    assert_eq!((counted.insert(1u64, 10), builds.0.replace(0)), (true, 1));
    assert_eq!((counted.get(&1u64), builds.0.replace(0)), (Some(&10), 1));
    assert_eq!((counted.get(&2u64), builds.0.replace(0)), (None, 1));
    assert_eq!((counted.remove(&1u64), builds.0.replace(0)), (Some(10), 1));
    let mut bytes = ByteTenants::with_hasher(Shared(&builds), 4000);
    assert_eq!((bytes.open(1u64, 500), builds.0.take() > 0), (Ok(()), true));
    assert_eq!((bytes.put(&1, 7u64, 2u64), builds.0.replace(0)), (Ok(true), 2));
    assert_eq!((bytes.get(&1, &7), builds.0.replace(0)), (Ok(Some(&2)), 2));
    assert_eq!((bytes.peek(&1, &7), builds.0.replace(0)), (Ok(Some(&2)), 2));
    assert_eq!((bytes.remove(&1, &7), builds.0.replace(0)), (Ok(Some(2)), 2));
    assert_eq!((bytes.close(&1), builds.0.replace(0)), (Ok(0), 1));
}

/// A counted look-up hashes the name and the key once; a counted insert hashes the key once more.
#[test]
fn counted_calls_of_tenants_hash_once() {
    let builds = Builds::default();
    let mut cache: TenantCache<u64, u64, u64, Counting<ByCost>, _> = TenantCache::with_hasher(Shared(&builds));
    assert_eq!((cache.open(1, 9), builds.0.take() > 0), (Ok(()), true));
    for (key, hashes) in [(7, 3), (8, 3), (7, 3)] {
        assert_eq!((cache.put_counted(&1, key, 2), builds.0.replace(0)), (Ok(true), hashes));
    }
    for (key, found) in [(8, Some(&2)), (7, Some(&2)), (9, None)] {
        assert_eq!((cache.get_counted(&1, &key), builds.0.replace(0)), (Ok(found), 2));
    }
    for (key, hashes) in [(7, 2), (9, 3), (9, 2)] {
        assert_eq!((cache.get_or_put_counted(&1, key, || 2), builds.0.replace(0)), (Ok(Some(&2)), hashes));
    }
    let counts = cache.counts(&1).unwrap();
    assert_eq!((cache.set_counts(&1, counts), cache.take_counts(&1), builds.0.replace(0)), (Ok(()), Ok(counts), 3));
}
