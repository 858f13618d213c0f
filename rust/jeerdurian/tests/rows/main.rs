//! Worked examples that no row can spell: iterators from both ends, copies, closures, texts as keys, limiters that log,
//! and refused requests for memory.
//!
//! The expected values follow from the rules of schnellru and of `docs/TABLE.md`.

mod helpers;
mod memory;
#[path = "../refusing/mod.rs"]
mod refusing;

use helpers::*;
use jeerdurian::tenants::{TenantCache, TenantError};
use jeerdurian::{ByLength, ByMemoryUsage, GetOrInsertError, Limiter, LruMap, More, ReserveError, UnlimitedCompact};
use std::cell::Cell;

#[test]
fn closures_that_may_fail() {
    let mut map = LruMap::with_seed(ByLength::new(2), SEED);
    for n in 1..=3u32 {
        assert_eq!(map.get_or_insert_fallible(n, || Ok::<u32, ()>(10 * n)), Ok(Some(&mut (10 * n))));
    }
    assert_eq!(entries(&map), [(3, 30), (2, 20)]);
    assert_eq!(map.get_or_insert_fallible(4, || Err("no")), Err("no"));
    assert_eq!(entries(&map), [(3, 30), (2, 20)]);

    let mut map = LruMap::with_seed(ByLength::new(2), SEED);
    for n in 1..=3u32 {
        assert_eq!(map.fallible().get_or_insert(n, || Ok::<u32, ()>(10 * n)), Ok(Some(&mut (10 * n))));
    }
    assert_eq!(map.fallible().get_or_insert(4, || Err("no")), Err(GetOrInsertError::Caller("no")));
    assert_eq!(entries(&map), [(3, 30), (2, 20)]);
}

#[test]
fn each_form_of_get_or_insert_grows_the_table() {
    let new = || LruMap::with_seed(UnlimitedCompact, SEED);
    let (mut plain, mut fallible, mut with_error) = (new(), new(), new());
    for n in 1..=4u32 {
        assert_eq!(plain.get_or_insert(n, || 10 * n), Some(&mut (10 * n)));
        assert_eq!(fallible.get_or_insert_fallible(n, || Ok::<u32, ()>(10 * n)), Ok(Some(&mut (10 * n))));
        assert_eq!(with_error.fallible().get_or_insert(n, || Ok::<u32, ()>(10 * n)), Ok(Some(&mut (10 * n))));
    }
    for map in [plain, fallible, with_error] {
        assert_eq!(map.guaranteed_capacity(), 7);
    }
}

/// Limits nothing, with links of 8 bits.
struct ShortLinks;

impl Limiter<u32, u32> for ShortLinks {
    type KeyToInsert<'a> = u32;
    type LinkType = u8;

    fn is_over_the_limit(&self, _: usize) -> bool {
        false
    }

    fn on_insert(&mut self, _: usize, key: u32, value: u32) -> Option<(u32, u32)> {
        Some((key, value))
    }

    fn on_replace(&mut self, _: usize, _: &mut u32, _: u32, _: &mut u32, _: &mut u32) -> bool {
        true
    }

    fn on_removed(&mut self, _: &mut u32, _: &mut u32) {}

    fn on_cleared(&mut self) {}

    fn on_grow(&mut self, _: usize) -> bool {
        true
    }
}

#[test]
fn links_of_8_bits_end_at_112_entries() {
    let new = |seed| LruMap::with_seed(ShortLinks, [seed; 4]);
    for seed in 0..100 {
        let mut map = new(seed);
        for key in 0..112 {
            assert!(map.insert(key, 10 * key));
            assert_eq!(map.peek_oldest(), Some((&0, &0)));
        }
        assert!(map.insert(112, 1120));
        assert_eq!(map.peek_newest(), Some((&112, &1120)));
        assert!(map.peek_oldest() != Some((&0, &0)));
        assert!((56..=112).contains(&map.len()));
    }
    let mut map = new(1);
    assert_eq!((map.try_reserve(0), map.memory_usage()), (Ok(()), 0));
    assert_eq!((map.try_reserve(112), map.guaranteed_capacity()), (Ok(()), 112));
    assert_eq!(map.try_reserve(113), Err(ReserveError::TooLarge));
    let mut map = fill(new(1), [1]);
    assert_eq!(map.try_reserve(usize::MAX), Err(ReserveError::TooLarge));
}

#[test]
fn a_drain_is_dropped_or_forgotten() {
    let mut map = costs();
    let mut drain = map.drain();
    assert_eq!(drain.next(), Some((3, 3)));
    drop(drain);
    assert_eq!((map.len(), map.limiter().limiter.cost()), (0, 0));

    let mut map = costs();
    assert!(map.drain().rev().eq([(1, 1), (2, 2), (3, 3)]));
    assert_eq!((map.len(), map.limiter().limiter.cost()), (0, 0));

    let mut map = costs();
    let mut drain = map.drain();
    assert_eq!(drain.next(), Some((3, 3)));
    std::mem::forget(drain);
    assert_eq!((entries(&map), map.limiter().limiter.cost()), (vec![(2, 2), (1, 1)], 3));
    assert!(!map.limiter().log.contains(&Cleared));
}

#[test]
fn the_greatest_usage_within_a_budget() {
    let usage = LruMap::<u32, u32, ByMemoryUsage>::memory_usage_for_memory_budget;
    assert_eq!([512, 84, 83].map(usage), [288, 84, 0]);
}

#[test]
fn one_iterator_from_both_ends() {
    let map = fill(LruMap::with_seed(UnlimitedCompact, SEED), 1..=4);
    let mut walk = map.iter();
    assert_eq!(walk.next(), Some((&4, &40)));
    assert_eq!(walk.next_back(), Some((&1, &10)));
    assert_eq!(walk.len(), 2);
    assert_eq!(walk.next_back(), Some((&2, &20)));
    assert_eq!(walk.next(), Some((&3, &30)));
    assert_eq!((walk.next(), walk.next_back()), (None, None));
}

#[test]
fn an_iterator_that_lends_is_dropped_after_one_write() {
    let mut map = fill(LruMap::with_seed(UnlimitedCompact, SEED), 1..=3);
    *map.iter_mut().next().unwrap().1 = 31;
    assert_eq!(entries(&map), [(3, 31), (2, 20), (1, 10)]);
}

/// A loop over `iter_mut` doubles the values of even keys, in the order of use.
#[test]
fn values_are_doubled_in_order() {
    let mut map = LruMap::with_seed(UnlimitedCompact, SEED);
    (0..3u32).for_each(|n| assert!(map.insert(n, n + 1)));
    for (key, value) in &mut map {
        *value *= 1 + u32::from(key % 2 == 0);
    }
    assert_eq!(map.get(&2), Some(&mut 6));
    assert!(map.iter_mut().map(|(key, _)| *key).eq([2, 1, 0]));
    assert_eq!(map.iter_mut().next_back().map(|(key, _)| *key), Some(0));
    assert!(map.get(&0).is_some());
    assert!(map.iter_mut().map(|(key, _)| *key).eq([0, 2, 1]));
    assert_eq!(map.iter_mut().next_back().map(|(key, _)| *key), Some(1));
}

/// Limits nothing, makes a `String` of a text that it stores, and counts inserts and replacements.
#[derive(Default)]
struct Texts {
    inserted: u32,
    replaced: u32,
}

impl Limiter<String, u32> for Texts {
    type KeyToInsert<'a> = &'a str;
    type LinkType = u32;

    fn is_over_the_limit(&self, _: usize) -> bool {
        false
    }

    fn on_insert(&mut self, _: usize, key: &str, value: u32) -> Option<(String, u32)> {
        self.inserted += 1;
        Some((key.into(), value))
    }

    fn on_replace(&mut self, _: usize, _: &mut String, _: &str, _: &mut u32, _: &mut u32) -> bool {
        self.replaced += 1;
        true
    }

    fn on_removed(&mut self, _: &mut String, _: &mut u32) {}

    fn on_cleared(&mut self) {}

    fn on_grow(&mut self, _: usize) -> bool {
        true
    }
}

#[test]
fn a_text_becomes_a_key_only_if_it_is_stored() {
    let mut map = LruMap::with_seed(Texts::default(), SEED);
    for text in ["1", "2", "1"] {
        assert!(map.insert(text, 1));
    }
    assert!(map.keys().eq(["1", "2"]));
    assert_eq!((map.limiter().inserted, map.limiter().replaced), (2, 1));
}

#[test]
fn texts_as_keys() {
    let mut owned: LruMap<String, u32, UnlimitedCompact> = LruMap::with_seed(UnlimitedCompact, SEED);
    let mut made = LruMap::with_seed(Texts::default(), SEED);
    for (text, value) in [("1", 1), ("2", 2), ("3", 3)] {
        assert!(owned.insert(text.to_string(), value) && made.insert(text, value));
    }
    assert_eq!(owned.peek("2"), Some(&2));
    assert_eq!(owned.get("2"), Some(&mut 2));
    assert_eq!(made.peek("2"), Some(&2));
    assert_eq!(made.get("2"), Some(&mut 2));
    assert_eq!(owned.get_or_insert("2".to_string(), || 20), Some(&mut 2));
    assert_eq!(owned.get_or_insert("4".to_string(), || 40), Some(&mut 40));
    assert_eq!(made.get_or_insert("2", || 200), Some(&mut 2));
    assert_eq!(made.get_or_insert("6", || 6), Some(&mut 6));
}

#[test]
fn a_copy_has_the_counts_of_its_source() {
    let mut map = fill(LruMap::with_seed(UnlimitedCompact, SEED), 1..=15);
    assert_eq!(map.move_report(), report(24, 15));
    assert_eq!((map.try_reserve(100), map.guaranteed_capacity()), (Ok(()), 224));
    assert_eq!(map.move_report(), report(24, 15));
    let copy = map.clone();
    assert_eq!((copy.move_report(), copy.guaranteed_capacity()), (report(24, 15), 224));
    assert_eq!(entries(&copy), tens((1..=15).rev()));
}

/// Returns a closure that counts its calls, and returns true at the n-th call.
fn at_the<K, V>(n: u32, asked: &Cell<u32>) -> impl FnMut(&K, &V) -> bool {
    move |_, _| {
        asked.set(asked.get() + 1);
        asked.get() == n
    }
}

#[test]
fn searches_by_hash() {
    let asked = Cell::new(0);
    let mut map = fill(LruMap::with_hasher(UnlimitedCompact, Thousands::default()), 1..=3);
    assert_eq!(map.get_by_hash(0, at_the(2, &asked)), Some(&mut 20));
    assert_eq!((asked.take(), entries(&map)), (2, tens([2, 3, 1])));
    assert_eq!((map.peek_by_hash(0, at_the(9, &asked)), asked.take()), (None, 3));

    let map = fill(LruMap::with_hasher(UnlimitedCompact, Itself::default()), 1..=3);
    assert_eq!((map.peek_by_hash(7, at_the(1, &asked)), asked.take()), (Some(&30), 1));
    assert_eq!((map.peek_by_hash(1 << 57, at_the(1, &asked)), asked.take()), (None, 0));
}

#[test]
fn random_inserts_and_removals_within_512_bytes() {
    let mut map: LruMap<u32, u32, _> = LruMap::with_memory_budget(512);
    let mut state = 1u32;
    let mut key = || {
        state = state.wrapping_mul(1_664_525).wrapping_add(1_013_904_223);
        (state >> 16) % 255
    };
    for n in 0..4096 {
        assert!(map.insert(key(), n % 256));
        assert!(map.memory_usage() <= 288);
        map.remove(&key());
        assert!(map.memory_usage() <= 288);
    }
    assert_eq!(map.memory_usage(), 288);
}

/// Two tenants; each evicts and rejects only its own entries. The first is closed, and opened again with a budget of 0.
#[test]
fn calls_on_two_tenants() {
    use TenantError::{AlreadyOpen, NotOpen};
    let mut cache: TenantCache<u64, u64, u64> = TenantCache::with_seed(SEED);
    assert_eq!([cache.open(1, 3), cache.open(2, 1), cache.open(1, 5)], [Ok(()), Ok(()), Err(AlreadyOpen)]);
    assert_eq!([cache.put(&1, 7, 1), cache.put(&2, 7, 2), cache.put(&2, 7, 1)], [true, false, true].map(Ok));
    assert_eq!(cache.put(&1, 8, 3), Ok(true));
    assert_eq!(cache.get(&1, &7), Ok(None));
    assert_eq!(cache.get(&2, &7), Ok(Some(&1)));
    assert_eq!([1, 2, 3].map(|name| cache.cost(&name)), [Ok(3), Ok(1), Err(NotOpen)]);
    assert_eq!(cache.close(&1), Ok(1));
    assert_eq!(cache.get(&1, &8), Err(NotOpen));
    assert_eq!(cache.close(&1), Err(NotOpen));
    assert_eq!(cache.open(1, 0), Ok(()));
    assert_eq!([cache.put(&1, 9, 0), cache.put(&1, 9, 1)], [true, false].map(Ok));
    assert_eq!(cache.cost(&1), Ok(0));
}
