//! What no contract says about the erased calls that `jeerdurian` lacks.

use crate::erased::lru_caches::OrderedMap;
use crate::erased::schnellru::{ByCost, ByLength, LruMap, RandomState, UnlimitedCompact};
use crate::programs::test_helpers::Hog;
use crate::rattle_std::alloc::{AllocError, Global};
use std::cell::Cell;
use std::hash::{BuildHasher, Hash, Hasher};

const SEEDS: [u64; 4] = [1, 2, 3, 4];

/// A table of 4 buckets holds 3 entries. There is no memory for the fourth entry, which is lost. The fifth is still in
/// the iterator.
#[test]
fn try_extend_leaves_the_iterator_behind_the_failed_entry() {
    let mut map = LruMap::new(Global, UnlimitedCompact, SEEDS, 16);
    let mut entries = (1..=9).map(|n| (n, 10 * n));
    assert_eq!(map.try_extend(entries.by_ref().take(2)), Ok(()));
    let hog = Hog::new(Global, &[]).unwrap();
    assert!(hog.took_all());
    let result = map.try_extend(entries.by_ref());
    drop(hog);
    assert_eq!(result, Err(AllocError));
    assert!(map.keys().eq([&3, &2, &1]));
    assert_eq!(entries.next(), Some((5, 50)));
    assert_eq!(map.try_extend(entries), Ok(()));
    assert!(map.keys().eq(&[9, 8, 7, 6, 3, 2, 1]));
}

type Map = LruMap<u64, u64, UnlimitedCompact, RandomState>;

/// Inserts a key by each form of an insert.
fn is_refused(map: &mut Map, form: u64, key: u64) -> bool {
    match form {
        0 => map.insert(key, key).is_err(),
        1 => map.insert_with(key, key, &mut |_, _| {}).is_err(),
        2 => map.get_or_insert(key, || key).is_err(),
        3 => map.get_or_insert_fallible(key, || Ok::<_, u8>(key)).is_err(),
        4 => map.ensure_newest(key, || key).is_err(),
        5 => map.ensure_newest_fallible(key, || Ok::<_, u8>(key)).is_err(),
        _ => map.try_extend([(key, key)]).is_err(),
    }
}

/// A first table of 4 buckets requests a block of entries and a block of control bytes. A growth from 8 buckets to 16
/// also requests links of the old entries.
#[test]
fn each_request_of_an_insert_is_refused() {
    let cases: [(u64, &[usize]); 2] = [(0, &[96, 20]), (7, &[384, 32, 32])];
    for (form, (len, requests)) in (0..7).flat_map(|form| cases.map(|case| (form, case))) {
        let mut map: Map = LruMap::new(Global, UnlimitedCompact, SEEDS, 16);
        (1..=len).for_each(|n| assert_eq!(map.insert(n, n), Ok(true)));
        let mut hog = Hog::new(Global, requests).unwrap();
        for met in 0..=requests.len() {
            assert_eq!(is_refused(&mut map, form, 99), met < requests.len(), "form {form}, {len} entries, {met} met");
            hog.release();
        }
        assert!(hog.took_all());
        assert!(map.keys().copied().eq([99].into_iter().chain((1..=len).rev())));
    }
}

/// The new entry costs as much as all other entries together, and evicts them.
#[test]
fn insert_and_keep_asks_for_one_entry_more_than_there_are() {
    for n in [0u64, 1, 3, 100, 2000, 50_000] {
        let mut map = LruMap::new(Global, ByCost::new(n), SEEDS, 16);
        (1..=n).for_each(|key| assert_eq!(map.insert(key, 1u64), Ok(true)));
        let (done, left) = map.insert_and_keep(0, n).unwrap();
        assert_eq!((done, map.len(), left.capacity()), (Ok(true), 1, n as usize + 1));
        assert!(left.iter().copied().eq((1..=n).map(|key| (key, 1))));
    }
}

/// A key that counts its hashes, and must not be compared.
#[derive(Eq)]
struct Counted<'a>(u64, &'a Cell<u64>);

impl Hash for Counted<'_> {
    fn hash<H: Hasher>(&self, hasher: &mut H) {
        self.1.set(self.1.get() + 1);
        self.0.hash(hasher);
    }
}

impl PartialEq for Counted<'_> {
    fn eq(&self, _: &Self) -> bool {
        unreachable!()
    }
}

/// `insert_absent` hashes only the entries that it moves.
#[test]
fn insert_absent_does_not_search() {
    let (hashes, mut evicted) = (Cell::new(0), std::vec::Vec::new());
    let mut map = LruMap::new(Global, ByLength::new(60), SEEDS, 16);
    for n in 0..2000 {
        let hash = map.hasher().hash_one(n);
        let result = map.insert_absent(hash, Counted(n, &hashes), n, &mut |key: Counted, _| evicted.push(key.0));
        assert_eq!((result, hashes.get()), (Ok(true), map.move_report().moved));
    }
    assert!(map.values().copied().eq((1940..2000).rev()) && evicted.into_iter().eq(0..1940));
}

#[test]
fn debug_shows_all() {
    for n in [0u64, 1, 2000] {
        let mut map = LruMap::new(Global, ByLength::new(2000), SEEDS, 16);
        let mut ordered = OrderedMap::with_hasher(Global, RandomState::with_seeds(SEEDS));
        for key in 1..=n {
            assert_eq!(map.insert(key, 10 * key), Ok(true));
            assert_eq!(ordered.insert(key, 10 * key), Ok(None));
        }
        let list: std::vec::Vec<_> = (1..=n).rev().map(|key| (key, 10 * key)).collect();
        let entries: std::collections::BTreeMap<_, _> = list.iter().copied().collect();
        assert_eq!(format!("{map:?}"), format!("LruMap {{ len: {n}, .. }}"));
        assert_eq!(format!("{:?}", map.iter()), format!("{list:?}"));
        assert_eq!(format!("{ordered:?}"), format!("{entries:?}"));
    }
}
