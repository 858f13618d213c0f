//! How often and when callbacks are called. No contract says this.

use jeerdurian::{Admission, Limiter, LruMap, More, UnlimitedCompact, Updated};
use std::cell::{Cell, RefCell};
use std::hash::{BuildHasherDefault, DefaultHasher};
use std::rc::Rc;

type Log = Rc<RefCell<Vec<String>>>;
type S = BuildHasherDefault<DefaultHasher>;

/// A limiter of the length, the bytes and each value that logs its callbacks.
struct Logging(usize, Log, usize);

/// The greatest value that may replace another value.
const GREATEST: u64 = 100;

impl Logging {
    fn note(&self, text: String) {
        self.1.borrow_mut().push(text);
    }
}

impl Limiter<u64, u64> for Logging {
    type KeyToInsert<'a> = u64;
    type LinkType = u32;

    fn is_over_the_limit(&self, length: usize) -> bool {
        self.note(format!("over {length}"));
        length > self.0
    }

    fn on_insert(&mut self, length: usize, key: u64, value: u64) -> Option<(u64, u64)> {
        self.note(format!("insert {length} {key}"));
        Some((key, value))
    }

    fn on_replace(&mut self, _: usize, key: &mut u64, _: u64, _: &mut u64, value: &mut u64) -> bool {
        self.note(format!("replace {key}"));
        *value <= GREATEST
    }

    fn on_removed(&mut self, key: &mut u64, _: &mut u64) {
        self.note(format!("removed {key}"));
    }

    fn on_cleared(&mut self) {
        self.note("cleared".into());
    }

    fn on_grow(&mut self, bytes: usize) -> bool {
        self.note("grow".into());
        bytes <= self.2
    }
}

/// A map of the keys below `n`, whose log is empty.
fn filled(n: u64, most: usize) -> (LruMap<u64, u64, Logging, S>, Log) {
    let log = Log::default();
    let mut map = LruMap::with_hasher(Logging(most, log.clone(), usize::MAX), S::new());
    (0..n).for_each(|k| assert!(map.insert(k, k)));
    log.borrow_mut().clear();
    (map, log)
}

/// Inserts into a map of the keys below `n`, whose table may grow or not.
fn logged(n: u64, (most, grows): (usize, bool), (key, value): (u64, u64)) -> String {
    let (mut map, log) = filled(n, 100);
    map.limiter_mut().0 = most;
    if !grows {
        map.limiter_mut().2 = map.memory_usage();
    }
    let passed = |key, _| log.borrow_mut().push(format!("passed {key}"));
    map.insert_with(key, value, passed);
    log.borrow().join(", ")
}

/// Each entry is passed on before the next callback.
#[test]
fn callbacks_of_inserts() {
    let new = |n, limits| logged(n, limits, (9, 40));
    let evicted = "removed 0, passed 0, over 3, removed 1, passed 1, over 2, removed 2, passed 2, over 1";
    assert_eq!(new(3, (1, true)), format!("insert 3 9, over 4, {evicted}"));
    assert_eq!(new(3, (9, false)), "insert 3 9, over 4, grow, removed 0, passed 0, over 3");
    assert_eq!(new(0, (9, false)), "insert 0 9, grow, removed 9, passed 9");
    assert_eq!(new(3, (9, true)), "insert 3 9, over 4, grow, over 4");
    assert_eq!(logged(3, (9, false), (1, 101)), "replace 1, removed 1, passed 1");
    assert_eq!(logged(3, (9, false), (1, 5)), "replace 1, over 3");
}

#[test]
fn callbacks_of_other_calls() {
    let (mut map, log) = filled(3, 9);
    assert_eq!(map.update(2, 21), Updated::Replaced(2));
    assert_eq!(map.update(9, 1), Updated::Absent(1));
    assert_eq!((map.get_or_insert(1, || 0).copied(), map.remove(&2)), (Some(1), Some(21)));
    map.trim();
    assert_eq!(map.find_entry(&0).map(|entry| entry.remove()), Some(0));
    map.clear();
    map.trim();
    assert_eq!(*log.borrow(), ["replace 2", "over 3", "removed 2", "over 2", "removed 0", "cleared"]);
}

#[test]
fn a_drop_of_a_map_notifies_nobody() {
    let (map, log) = filled(50, 100);
    drop(map);
    assert!(log.borrow().is_empty());
    let (map, log) = filled(50, 100);
    let mut entries = map.into_iter();
    assert_eq!(entries.next(), Some((49, 49)));
    drop(entries);
    assert_eq!(*log.borrow(), ["removed 49"]);
}

#[test]
fn a_drain_notifies_of_what_it_takes_and_of_the_clear() {
    let (mut map, log) = filled(5, 100);
    assert_eq!(map.drain().next_back(), Some((0, 0)));
    assert_eq!(*log.borrow(), ["removed 0", "cleared"]);
    map.clear();
    assert_eq!(*log.borrow(), ["removed 0", "cleared", "cleared"]);
}

#[test]
fn a_retain_asks_once_for_each_entry_and_passes_it_on_before_it_asks_again() {
    for n in [0, 1, 50, 5000] {
        let (mut map, log) = filled(n, 10_000);
        let asked = Cell::new(0);
        let note = |text: String| log.borrow_mut().push(text);
        map.retain_with(
            |key, _| {
                asked.set(asked.get() + 1);
                note(format!("asked {key}"));
                key % 3 != 1
            },
            |key, _| note(format!("passed {key}")),
        );
        assert_eq!(asked.get(), n);
        let expected: Vec<_> = (0..n)
            .flat_map(|key| {
                let removed = key % 3 == 1;
                let asked = Some(format!("asked {key}"));
                [asked, removed.then(|| format!("removed {key}")), removed.then(|| format!("passed {key}"))]
            })
            .flatten()
            .collect();
        assert_eq!(*log.borrow(), expected);
        map.retain(|_, _| {
            asked.set(asked.get() + 1);
            true
        });
        assert_eq!(asked.get(), n + map.len() as u64);
    }
}

#[test]
fn a_search_asks_no_more_after_its_answer() {
    let (mut map, _) = filled(3000, 10_000);
    for tag in 0..128u64 {
        let (hash, asked) = (tag << 57, Cell::new(0));
        let found = map.peek_by_hash(hash, |_, _| {
            asked.set(asked.get() + 1);
            true
        });
        assert_eq!(asked.take(), u32::from(found.is_some()));
        let found = map.find_entry_by_hash(hash, |_, _| asked.replace(asked.get() + 1) == 0).is_some();
        assert_eq!(asked.get(), u32::from(found));
        let mut rejected = std::collections::BTreeSet::new();
        assert!(map.find_entry_by_hash(hash, |key, _| !rejected.insert(*key)).is_none());
    }
}

/// Inserts of both kinds rehash a table that stays at most half full at its size, and never grow it.
#[test]
fn a_table_of_deleted_buckets_is_rehashed() {
    for is_tried in [false, true] {
        let mut map = LruMap::with_seed(UnlimitedCompact, [1, 2, 3, 4]);
        (0..1792u64).for_each(|n| assert!(map.insert(n, n)));
        let bytes = map.memory_usage();
        (0..900u64).for_each(|n| assert!(map.remove(&n).is_some()));
        let mut rehashes = 0;
        for n in 2000..30_000 {
            let moved = map.move_report().moved;
            assert!(if is_tried { map.try_insert(n, n).is_ok() } else { map.insert(n, n) });
            rehashes += u64::from(map.move_report().moved > moved);
            map.pop_oldest();
        }
        assert_eq!((map.memory_usage(), map.len()), (bytes, 892));
        assert!(is_tried || rehashes > 3, "{rehashes}");
    }
}

/// A limiter that counts the entries, and compares its count with the length that callbacks get.
#[derive(Clone, Copy)]
struct Counting(usize);

impl Limiter<u64, u64> for Counting {
    type KeyToInsert<'a> = u64;
    type LinkType = u32;

    fn is_over_the_limit(&self, _: usize) -> bool {
        self.0 > 5
    }

    fn on_insert(&mut self, length: usize, key: u64, value: u64) -> Option<(u64, u64)> {
        self.on_stored(length, &key, &value);
        Some((key, value))
    }

    fn on_replace(&mut self, length: usize, _: &mut u64, _: u64, _: &mut u64, _: &mut u64) -> bool {
        assert_eq!(length, self.0);
        true
    }

    fn on_removed(&mut self, _: &mut u64, _: &mut u64) {
        self.0 -= 1;
    }

    fn on_cleared(&mut self) {
        self.0 = 0;
    }

    fn on_grow(&mut self, _: usize) -> bool {
        true
    }
}

impl Admission<u64, u64> for Counting {
    fn accepts(&self, length: usize, key: &u64, _: &u64) -> bool {
        assert_eq!(length, self.0);
        *key != 13
    }

    fn on_stored(&mut self, length: usize, _: &u64, _: &u64) {
        assert_eq!(length, self.0);
        self.0 += 1;
    }
}

#[test]
fn limiters_are_told_the_length() {
    let mut map = LruMap::with_hasher(Counting(0), S::new());
    assert_eq!(map.try_insert(13, 0), Err((13, 0)));
    (0..5).for_each(|n| assert_eq!(map.try_insert(n, n), Ok(())));
    assert_eq!(map.try_insert(5, 5), Err((5, 5)));
    (0..9).for_each(|n| assert!(map.insert(n, n) && map.insert(n, n + 1)));
    assert_eq!((map.len(), map.limiter().0), (5, 5));
}
