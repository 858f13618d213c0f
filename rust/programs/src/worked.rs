//! Worked examples of erased calls that `jeerdurian` lacks, writes anew, or keeps private, and that no row of
//! `crates/rows` spells. The expected values follow from the rules of schnellru and of `docs`.

use crate::erased::group_table::group::{match_empty, match_free, match_tag};
use crate::erased::lru_tenants::{TenantAnswer, TenantCache, TenantCall, TenantError, run_tenants};
use crate::erased::schnellru::{ByLength, GetOrInsertError, Limiter, LruMap, MoveReport, UnlimitedCompact};
use crate::programs::test_helpers::{Counting, Hog, InsertKey};
use crate::rattle_std::alloc::{AllocError, Global};
use crate::rattle_std::vec::Vec;
use std::hash::{BuildHasher, Hash};

const SEEDS: [u64; 4] = [1, 2, 3, 4];

/// Fails unless the map contains these entries, newest first.
fn assert_entries<K, V, L, S, const N: usize>(map: &LruMap<K, V, L, S>, entries: [(K, V); N])
where
    K: PartialEq + Hash,
    V: PartialEq,
    L: Limiter<K, V>,
    S: BuildHasher,
{
    assert!(map.iter().eq(entries.iter().map(|(key, value)| (key, value))));
}

#[test]
fn closures_that_may_fail() {
    let mut map = LruMap::new(Global, ByLength::new(2), SEEDS, 16);
    for n in 1..=3 {
        assert_eq!(map.get_or_insert_fallible(n, || Ok::<u64, ()>(10 * n)), Ok(Some(&mut (10 * n))));
    }
    assert_entries(&map, [(3, 30), (2, 20)]);
    assert_eq!(map.get_or_insert_fallible(4, || Err("no")), Err(GetOrInsertError::Caller("no")));
    assert_entries(&map, [(3, 30), (2, 20)]);
}

#[test]
fn each_form_of_get_or_insert_grows_the_table() {
    let new = || LruMap::new(Global, UnlimitedCompact, SEEDS, 16);
    let (mut plain, mut fallible) = (new(), new());
    for n in 1..=4u64 {
        assert_eq!(plain.get_or_insert(n, || 10 * n), Ok(Some(&mut (10 * n))));
        assert_eq!(fallible.get_or_insert_fallible(n, || Ok::<u64, ()>(10 * n)), Ok(Some(&mut (10 * n))));
    }
    assert_eq!((plain.guaranteed_capacity(), fallible.guaranteed_capacity()), (7, 7));
}

#[test]
fn an_iterator_that_lends_is_dropped_after_one_write() {
    let mut map = LruMap::new(Global, UnlimitedCompact, SEEDS, 16);
    (1..=3u64).for_each(|n| assert_eq!(map.insert(n, 10 * n), Ok(true)));
    *map.iter_mut().next().unwrap().1 = 31;
    assert_entries(&map, [(3, 31), (2, 20), (1, 10)]);
}

/// Returns the keys that an iterator lends.
fn lent<L: Limiter<u64, u64>, S: BuildHasher>(map: &mut LruMap<u64, u64, L, S>) -> std::vec::Vec<u64> {
    let mut walk = map.iter_mut();
    std::iter::from_fn(|| walk.next().map(|(key, _)| *key)).collect()
}

#[test]
fn values_are_doubled_in_order() {
    let mut map = LruMap::new(Global, UnlimitedCompact, SEEDS, 16);
    (0..3).for_each(|n| assert_eq!(map.insert(n, n + 1), Ok(true)));
    let mut walk = map.iter_mut();
    while let Some((key, value)) = walk.next() {
        *value *= if *key % 2 == 0 { 2 } else { 1 };
    }
    assert_eq!(map.get(&2), Some(&mut 6));
    assert_eq!(lent(&mut map), [2, 1, 0]);
    assert_eq!(map.iter_mut().next_back().map(|(key, _)| *key), Some(0));
    assert!(map.get(&0).is_some());
    assert_eq!(lent(&mut map), [0, 2, 1]);
    assert_eq!(map.iter_mut().next_back().map(|(key, _)| *key), Some(1));
}

#[test]
fn a_text_becomes_a_key_only_if_it_is_stored() {
    let mut map = LruMap::new(Global, Counting::default(), SEEDS, 16);
    for text in ["1", "2", "1"] {
        assert_eq!(map.insert(InsertKey(text), 1), Ok(true));
    }
    assert!(map.keys().eq(["1", "2"]));
    assert_eq!((map.limiter().inserts, map.limiter().replacements), (2, 1));
}

#[test]
fn a_text_that_finds_no_memory_changes_nothing() {
    let mut map = LruMap::new(Global, Counting::default(), SEEDS, 16);
    assert_eq!(map.insert(InsertKey("1"), 1), Ok(true));
    let hog = Hog::new(Global, &[]).unwrap();
    assert!(hog.took_all());
    let result = map.insert(InsertKey("2"), 2);
    drop(hog);
    assert_eq!(result, Err(AllocError));
    assert_entries(&map, [("1".to_string(), 1)]);
    assert_eq!((map.guaranteed_capacity(), map.memory_usage()), (3, 84));
    assert_eq!(map.move_report(), MoveReport { moved: 0, placed: 1, shrunk: 0 });
    assert_eq!((map.limiter().inserts, map.limiter().replacements), (1, 0));
    assert_eq!(map.insert(InsertKey("2"), 2), Ok(true));
}

#[test]
fn texts_as_keys() {
    let mut map = LruMap::new(Global, Counting::default(), SEEDS, 16);
    for (text, value) in [("1", 1), ("2", 2), ("3", 3)] {
        assert_eq!(map.insert(InsertKey(text), value), Ok(true));
    }
    assert_eq!(map.peek(&"2"), Some(&2));
    assert_eq!(map.get(&"2"), Some(&mut 2));
    assert_eq!(map.get_or_insert(InsertKey("2"), || 200), Ok(Some(&mut 2)));
    assert_eq!(map.get_or_insert(InsertKey("6"), || 6), Ok(Some(&mut 6)));

    let mut map: LruMap<String, u32, UnlimitedCompact> = LruMap::new(Global, UnlimitedCompact, SEEDS, 32);
    for (text, value) in [("1", 1), ("2", 2), ("3", 3)] {
        assert_eq!(map.insert(text.to_string(), value), Ok(true));
    }
    assert_eq!(map.peek(&"2"), Some(&2));
    assert_eq!(map.get(&"2"), Some(&mut 2));
    assert_eq!(map.get_or_insert("2".to_string(), || 20), Ok(Some(&mut 2)));
    assert_eq!(map.get_or_insert("4".to_string(), || 40), Ok(Some(&mut 40)));
}

#[test]
fn masks_of_a_group() {
    let mut bytes = [255; 16];
    (bytes[0], bytes[2], bytes[3]) = (0, 128, 5);
    assert_eq!((match_tag(&bytes, 0), match_tag(&bytes, 5)), (0x0001, 0x0008));
    assert_eq!((match_empty(&bytes), match_free(&bytes)), (0xfff2, 0xfff6));
    let bytes = [0x7f; 16];
    assert_eq!((match_tag(&bytes, 0x7f), match_empty(&bytes), match_free(&bytes)), (0xffff, 0, 0));
}

/// Two tenants; each evicts and rejects only its own entries. The first is closed, and opened again with a budget of 0.
#[test]
fn a_list_of_calls_on_two_tenants() {
    use TenantCall::{Close, Cost, Get, Open, Put};
    let calls = [
        Open(1, 3),
        Open(2, 1),
        Open(1, 5),
        Put(1, 7, 1),
        Put(2, 7, 2),
        Put(2, 7, 1),
        Put(1, 8, 3),
        Get(1, 7),
        Get(2, 7),
        Cost(1),
        Cost(2),
        Cost(3),
        Close(1),
        Get(1, 8),
        Close(1),
        Open(1, 0),
        Put(1, 9, 0),
        Put(1, 9, 1),
        Cost(1),
    ];
    let expected = [
        TenantAnswer::Opened(Ok(())),
        TenantAnswer::Opened(Ok(())),
        TenantAnswer::Opened(Err(TenantError::AlreadyOpen)),
        TenantAnswer::Put(Ok(true)),
        TenantAnswer::Put(Ok(false)),
        TenantAnswer::Put(Ok(true)),
        TenantAnswer::Put(Ok(true)),
        TenantAnswer::Got(Ok(None)),
        TenantAnswer::Got(Ok(Some(1))),
        TenantAnswer::Cost(Ok(3)),
        TenantAnswer::Cost(Ok(1)),
        TenantAnswer::Cost(Err(TenantError::NotOpen)),
        TenantAnswer::Closed(Ok(1)),
        TenantAnswer::Got(Err(TenantError::NotOpen)),
        TenantAnswer::Closed(Err(TenantError::NotOpen)),
        TenantAnswer::Opened(Ok(())),
        TenantAnswer::Put(Ok(true)),
        TenantAnswer::Put(Ok(false)),
        TenantAnswer::Cost(Ok(0)),
    ];
    let mut cache: TenantCache<u64, u64, u64> = TenantCache::new(Global, SEEDS);
    let answers = run_tenants(Global, &mut cache, Vec::of_array(Global, calls).unwrap()).unwrap();
    assert_eq!(answers.as_slice(), expected);
}
