//! Random calls against a plain list, the newest first, with texts as keys.

use jeerdurian::{ByCost, ByLength, Costed, Limiter, LruMap, More, Updated};
use std::cell::{Cell, RefCell};
use std::hash::BuildHasher;
use std::rc::Rc;

struct Random(u64);

impl Random {
    fn below(&mut self, n: u64) -> u64 {
        self.0 = self.0.wrapping_mul(6364136223846793005).wrapping_add(1442695040888963407);
        (self.0 >> 33) % n
    }
}

/// The entries, the newest first, and their greatest number.
#[derive(Default)]
struct List {
    pairs: Vec<(String, u64)>,
    most: usize,
}

impl List {
    fn at(&self, k: &str) -> Option<usize> {
        self.pairs.iter().position(|it| it.0 == k)
    }

    fn promote(&mut self, k: &str) -> Option<&mut u64> {
        let pair = self.pairs.remove(self.at(k)?);
        self.pairs.insert(0, pair);
        Some(&mut self.pairs[0].1)
    }

    fn demote(&mut self, k: &str) -> bool {
        let at = self.at(k);
        let pair = at.map(|at| self.pairs.remove(at));
        self.pairs.extend(pair);
        at.is_some()
    }

    fn insert(&mut self, k: &str, v: u64) -> bool {
        if let Some(old) = self.promote(k) {
            *old = v;
        } else if self.most > 0 {
            self.pairs.truncate(self.most - 1);
            self.pairs.insert(0, (k.into(), v));
        }
        !self.pairs.is_empty() && self.most > 0
    }
}

/// Makes one call on both, and compares what they return.
fn step(map: &mut LruMap<String, u64>, list: &mut List, kind: u64, k: &str, v: u64) {
    match kind {
        0..=6 => assert_eq!(map.insert(k.to_string(), v), list.insert(k, v)),
        7..=9 => assert_eq!(map.get(k), list.promote(k)),
        10 => assert_eq!(map.peek(k), list.at(k).map(|i| &list.pairs[i].1)),
        11 => assert_eq!(map.contains(k), list.at(k).is_some()),
        12..=14 => assert_eq!(map.remove(k), list.at(k).map(|i| list.pairs.remove(i).1)),
        15 => assert_eq!(map.pop_oldest(), list.pairs.pop()),
        16 => {
            let is_there = list.promote(k).is_some() || list.insert(k, v);
            assert_eq!(map.get_or_insert(k.to_string(), || v), is_there.then(|| &mut list.pairs[0].1));
        }
        17 => assert_eq!(map.promote(k), list.promote(k).is_some()),
        18 => assert_eq!(map.demote(k), list.demote(k)),
        19 => {
            map.retain(|_, it| it % 11 != v % 11);
            list.pairs.retain(|it| it.1 % 11 != v % 11);
        }
        20 => {
            let at = list.at(k);
            let pair = |i: usize| list.pairs.get(i).map(|it| (&it.0, &it.1));
            assert_eq!(map.get_index_of(k), at);
            assert_eq!(map.peek_older(k), at.and_then(|i| pair(i + 1)));
            assert_eq!(map.peek_newer(k), at.and_then(|i| pair(i.wrapping_sub(1))));
        }
        21 => assert_eq!(map.get_index(v as usize % 9), list.pairs.get(v as usize % 9).map(|it| (&it.0, &it.1))),
        22 => update(map, list, k, v),
        _ => {
            map.iter_mut().for_each(|(_, it)| *it ^= 1);
            list.pairs.iter_mut().for_each(|it| it.1 ^= 1);
        }
    }
}

/// Does what `step` does, for the calls that `step` lacks.
fn step_more(map: &mut LruMap<String, u64>, list: &mut List, kind: u64, k: &str, v: u64) {
    let hash = map.hasher().hash_one(k);
    let at = list.at(k);
    match kind {
        0 => assert_eq!(map.peek_mut(k), at.map(|i| &mut list.pairs[i].1)),
        1 => assert_eq!(map.peek_by_hash_mut(hash, |key, _| key == k), at.map(|i| &mut list.pairs[i].1)),
        2 => assert_eq!(map.get_by_hash(hash, |key, _| key == k), list.promote(k)),
        3 => assert_eq!(map.get_key_value(k).map(|it| it.1), list.promote(k).map(|it| &*it)),
        4 => assert_eq!(map.fallible().get_or_insert(k.to_string(), || Err(v)).ok(), at.map(|_| list.promote(k))),
        5 => assert_eq!(map.pop_oldest_if(|_, it| it % 2 == 0), list.pairs.pop_if(|it| it.1 % 2 == 0)),
        6 => assert_eq!(map.pop_newest(), (!list.pairs.is_empty()).then(|| list.pairs.remove(0))),
        7 => assert_eq!(map.newest_mut(), list.pairs.first_mut().map(|it| &mut it.1)),
        8 => step_found(map, list, k, v),
        _ => {
            let old = map.set_limiter(ByLength::new(v as u32 % 40));
            assert_eq!((old.max_length() as usize, map.limiter().max_length()), (list.most, v as u32 % 40));
            list.most = v as usize % 40;
            list.pairs.truncate(list.most);
        }
    }
}

/// What a handle on an entry does.
fn step_found(map: &mut LruMap<String, u64>, list: &mut List, k: &str, v: u64) {
    let hash = map.hasher().hash_one(k);
    let found = if v & 1 == 0 { map.find_entry(k) } else { map.find_entry_by_hash(hash, |key, _| key == k) };
    let Some(at) = list.at(k) else { return assert!(found.is_none()) };
    let mut entry = found.unwrap();
    assert_eq!((entry.key(), entry.get()), (&list.pairs[at].0, &list.pairs[at].1));
    match v % 7 {
        0 => return assert_eq!(entry.remove_entry(), list.pairs.remove(at)),
        1 => return assert_eq!(entry.remove(), list.pairs.remove(at).1),
        2 => *entry.get_mut() = v,
        3 => {
            entry.promote();
            list.promote(k);
        }
        _ => {
            entry.demote();
            list.demote(k);
        }
    }
    let at = list.at(k).unwrap();
    list.pairs[at].1 = v + 1;
    *entry.into_mut() = v + 1;
}

fn update(map: &mut LruMap<String, u64>, list: &mut List, k: &str, v: u64) {
    let old = list.at(k).map(|i| std::mem::replace(&mut list.pairs[i].1, v));
    assert_eq!(map.update(k.to_string(), v), old.map_or(Updated::Absent(v), Updated::Replaced));
}

#[test]
fn as_a_list() {
    for seed in 0..120 {
        let mut random = Random(seed);
        let most = [0, 1, 2, 5, 7, 14, 40, 100, 300, 1000][seed as usize % 10];
        let mut list = List { most, ..Default::default() };
        let mut map = LruMap::with_seed(ByLength::new(most as u32), [seed, 2, 3, 4]);
        let keys = 1 + random.below(3 * most as u64 + 3);
        for v in 0..3000u64 {
            let (k, kind) = (random.below(keys).to_string(), random.below(24));
            step(&mut map, &mut list, kind, &k, v);
            assert_eq!(map.len(), list.pairs.len());
            if v % 7 == 0 {
                assert!(map.iter().eq(list.pairs.iter().map(|it| (&it.0, &it.1))));
                assert!(map.iter().rev().eq(list.pairs.iter().rev().map(|it| (&it.0, &it.1))));
                assert!(map.keys().eq(list.pairs.iter().map(|it| &it.0)));
                assert!(map.values().rev().eq(list.pairs.iter().rev().map(|it| &it.1)));
            }
        }
        assert!(map.into_iter().eq(list.pairs));
    }
}

#[test]
fn other_calls_as_of_a_list() {
    for seed in 0..60 {
        let mut random = Random(seed);
        let (most, kinds) = [(40, 100), (400, 99)][seed as usize % 2];
        let mut list = List { most, ..Default::default() };
        let mut map = LruMap::with_seed(ByLength::new(most as u32), [seed, 2, 3, 4]);
        (0..most as u64 - 40).for_each(|n| assert_eq!(map.insert(n.to_string(), n), list.insert(&n.to_string(), n)));
        for v in 0..1000u64 {
            let (k, kind) = (random.below(most as u64 + 10).to_string(), random.below(kinds));
            match kind {
                0..=40 => step(&mut map, &mut list, kind % 24, &k, v),
                41..=98 => step_more(&mut map, &mut list, kind % 9, &k, v),
                _ => step_more(&mut map, &mut list, 9, &k, v),
            }
            assert!(map.iter().eq(list.pairs.iter().map(|it| (&it.0, &it.1))));
        }
    }
}

/// If a closure fails, nothing changes, even if the map is over its limit or its table is full.
#[test]
fn a_closure_that_fails_changes_nothing() {
    let mut map = LruMap::new(ByLength::new(14));
    (0..14u64).for_each(|n| assert!(map.insert(n, n)));
    *map.limiter_mut() = ByLength::new(5);
    let before = (map.memory_usage(), map.guaranteed_capacity());
    assert_eq!(map.get_or_insert_fallible(20u64, || Err(1)), Err(1));
    assert!(map.fallible().get_or_insert(20u64, || Err(1)).is_err());
    assert_eq!((map.len(), (map.memory_usage(), map.guaranteed_capacity())), (14, before));
    map.trim();
    assert!(map.keys().eq(&[13, 12, 11, 10, 9]));
}

/// If `Into` makes a key with another hash, this key is looked up again.
#[test]
fn a_conversion_may_make_another_key() {
    #[derive(Hash)]
    struct Before(u64);
    impl PartialEq<u64> for Before {
        fn eq(&self, key: &u64) -> bool {
            self.0 == *key
        }
    }
    impl From<Before> for u64 {
        fn from(key: Before) -> u64 {
            key.0 + 1
        }
    }
    let mut map = LruMap::new(ByLength::new(3));
    assert!(map.insert(2, 20));
    assert_eq!(map.get_or_insert(Before(2), || 30), Some(&mut 20));
    assert_eq!(map.get_or_insert(Before(1), || 10), Some(&mut 10));
    assert!(map.iter().eq([(&2, &10)]));
}

/// A rejected entry is not there, and `get_or_insert` does not lend the newest entry in its place.
#[test]
fn what_is_rejected_is_not_lent() {
    let mut map: LruMap<u64, Vec<u8>, ByCost> = LruMap::new(ByCost::new(10));
    assert!(map.insert(1, vec![0; 4]));
    assert_eq!(map.get_or_insert(2u64, || vec![0; 11]), None);
    assert_eq!(map.fallible().get_or_insert(2u64, || Ok::<_, ()>(vec![0; 11])), Ok(None));
    assert_eq!(map.try_insert(2, vec![0; 11]), Err((2, vec![0; 11])));
    assert_eq!(map.try_insert(2, vec![0; 7]), Err((2, vec![0; 7])));
    assert_eq!((map.len(), map.limiter().cost(), Vec::<u8>::with_capacity(9).cost()), (1, 4, 0));
}

#[test]
fn reservations_suffice() {
    for n in 0..500 {
        let mut map: LruMap<u64, u64> = LruMap::new(ByLength::new(1000));
        map.reserve_or_panic(n);
        assert!(map.guaranteed_capacity() >= n);
        assert!(map.insert(1, 1) && map.try_reserve(n).is_ok());
        assert!(map.guaranteed_capacity() > n);
    }
}

#[test]
fn a_running_total_is_the_sum() {
    let mut map: LruMap<String, String, ByCost> = LruMap::new(ByCost::new(100));
    let mut random = Random(5);
    for n in 0..20_000u64 {
        let (key, value) = (random.below(60).to_string(), "x".repeat(random.below(110) as usize));
        let (is_fitting, answer) = (value.len() <= 100, map.insert(key.clone(), value));
        assert_eq!(answer, is_fitting && map.contains(&key));
        if n % 5 == 0 {
            map.remove(&random.below(60).to_string());
            _ = map.try_insert(key, "x".repeat(n as usize % 120));
        }
        let sum: usize = map.values().map(String::len).sum();
        assert_eq!(map.limiter().cost(), sum as u64);
        assert!(sum <= 100);
    }
}

/// A value that adds 25 to a total while it lives.
struct Blob(Rc<Cell<u64>>);

impl Blob {
    fn new(total: &Rc<Cell<u64>>) -> Self {
        total.set(total.get() + 25);
        Blob(total.clone())
    }
}

impl Drop for Blob {
    fn drop(&mut self) {
        self.0.set(self.0.get() - 25);
    }
}

/// A limiter whose total is kept by the values themselves.
struct Total(Rc<Cell<u64>>);

impl Limiter<u64, Blob> for Total {
    type KeyToInsert<'a> = u64;
    type LinkType = u32;

    fn is_over_the_limit(&self, _: usize) -> bool {
        self.0.get() > 100
    }

    fn on_insert(&mut self, _: usize, key: u64, value: Blob) -> Option<(u64, Blob)> {
        Some((key, value))
    }

    fn on_replace(&mut self, _: usize, _: &mut u64, _: u64, _: &mut Blob, _: &mut Blob) -> bool {
        true
    }

    fn on_removed(&mut self, _: &mut u64, _: &mut Blob) {}

    fn on_cleared(&mut self) {}

    fn on_grow(&mut self, _: usize) -> bool {
        true
    }
}

#[test]
fn a_replaced_value_is_dropped_before_evictions() {
    let total = Rc::new(Cell::new(0));
    let mut map = LruMap::new(Total(total.clone()));
    (0..4).for_each(|n| assert!(map.insert(n, Blob::new(&total))));
    assert!(map.insert(3, Blob::new(&total)));
    assert_eq!((map.len(), total.get()), (4, 100));
}

/// If the map drops an entry, it drops the key first.
#[test]
fn a_key_is_dropped_before_its_value() {
    type Log = Rc<RefCell<Vec<&'static str>>>;
    struct Noted(u64, &'static str, Log);
    impl Drop for Noted {
        fn drop(&mut self) {
            self.2.borrow_mut().push(self.1);
        }
    }
    impl PartialEq for Noted {
        fn eq(&self, other: &Self) -> bool {
            self.0 == other.0
        }
    }
    impl std::hash::Hash for Noted {
        fn hash<H: std::hash::Hasher>(&self, hasher: &mut H) {
            self.0.hash(hasher);
        }
    }
    let log = Log::default();
    let mut map = LruMap::new(ByLength::new(1));
    map.insert(Noted(1, "key", log.clone()), Noted(1, "value", log.clone()));
    map.insert(Noted(2, "", log.clone()), Noted(2, "", log.clone()));
    assert_eq!(*log.borrow(), ["key", "value"]);
}
