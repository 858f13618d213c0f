//! Each call at 2^20 and at 2^23 entries, with rehashes, reservations, shrinks, copies and drops.

use jeerdurian::{LruMap, More, UnlimitedCompact};
use std::cell::Cell;

thread_local! {
    static LIVE: Cell<u64> = const { Cell::new(0) };
}

/// A value that counts how many of its kind live.
struct Counted(u64);

impl Counted {
    fn new(n: u64) -> Self {
        LIVE.set(LIVE.get() + 1);
        Counted(n)
    }
}

impl Clone for Counted {
    fn clone(&self) -> Self {
        Counted::new(self.0)
    }
}

impl Drop for Counted {
    fn drop(&mut self) {
        LIVE.set(LIVE.get() - 1);
    }
}

type Map = LruMap<u64, Counted, UnlimitedCompact>;

/// A map, and for each key the time of its last use; zero if the key is not there.
struct Pair {
    map: Map,
    used: Vec<u64>,
    now: u64,
}

impl Pair {
    fn use_at(&mut self, n: u64) {
        self.now += 1;
        self.used[n as usize] = self.now;
    }

    fn insert(&mut self, n: u64) {
        assert!(self.map.insert(n, Counted::new(n)));
        self.use_at(n);
    }

    fn remove(&mut self, n: u64) {
        assert_eq!(self.map.remove(&n).map(|it| it.0), Some(n));
        self.used[n as usize] = 0;
    }

    /// Fails unless the map contains exactly the used keys, the last used first, and no other value lives.
    fn check(&self, map: &Map, others: u64) {
        let mut last = u64::MAX;
        for (key, value) in map.iter() {
            assert!(self.used[*key as usize] < last && *key == value.0);
            last = self.used[*key as usize];
        }
        assert!(last > 0);
        let count = self.used.iter().filter(|it| **it > 0).count();
        assert_eq!((map.len(), map.iter().rev().count()), (count, count));
        assert_eq!(LIVE.get(), count as u64 + others);
    }
}

fn life(n: u64) {
    let mut pair = Pair { map: LruMap::new(UnlimitedCompact), used: vec![0; 2 * n as usize], now: 0 };
    (0..n).for_each(|k| pair.insert(k));
    pair.check(&pair.map, 0);
    for k in (0..n).step_by(7) {
        assert_eq!(pair.map.get(&k).map(|it| it.0), Some(k));
        pair.use_at(k);
    }
    // Deleted buckets, and new keys: the table is rehashed at its size.
    let buckets = pair.map.memory_usage();
    (0..n).step_by(3).for_each(|k| pair.remove(k));
    (n..n + n / 4).for_each(|k| pair.insert(k));
    (n..n + n / 4).for_each(|k| pair.remove(k));
    pair.map.reserve_or_panic(n as usize / 5);
    assert_eq!(pair.map.memory_usage(), buckets);
    pair.check(&pair.map, 0);
    pair.map.reserve_or_panic(2 * n as usize);
    assert!(pair.map.memory_usage() > buckets);
    assert!(pair.map.shrink_to_fit() && !pair.map.shrink_to_fit());
    assert!(pair.map.memory_usage() <= buckets);
    pair.check(&pair.map, 0);
    copies(&pair);
    ends(pair);
    assert_eq!(LIVE.get(), 0);
}

/// A copy equals its original, and has its own entries.
fn copies(pair: &Pair) {
    let mut copy = pair.map.clone();
    let len = copy.len() as u64;
    pair.check(&copy, len);
    copy.retain(|key, _| key % 2 == 0);
    assert!(copy.iter().all(|(key, _)| key % 2 == 0));
    assert_eq!(copy.drain().take(10).count(), 10);
    assert!(copy.is_empty());
    pair.check(&pair.map, 0);
}

/// Walks that write, demotions, pops, a clear and drops.
fn ends(mut pair: Pair) {
    pair.map.iter_mut().for_each(|(key, value)| assert_eq!(*key, value.0));
    let oldest = *pair.map.peek_oldest().expect("an entry").0;
    let newest = *pair.map.peek_newest().expect("an entry").0;
    assert!(pair.map.demote(&newest) && pair.map.promote(&oldest));
    assert_eq!(pair.map.pop_newest().map(|it| (it.0, it.1.0)), Some((oldest, oldest)));
    assert_eq!(pair.map.pop_oldest().map(|it| (it.0, it.1.0)), Some((newest, newest)));
    let mut copy = pair.map.clone();
    copy.clear();
    assert!(copy.is_empty() && copy.guaranteed_capacity() >= pair.map.len());
    let half = pair.map.len() / 2;
    assert_eq!(pair.map.into_iter().take(half).count(), half);
}

#[test]
fn a_million_entries() {
    life(1 << 20);
}

#[test]
#[cfg_attr(debug_assertions, ignore = "a minute in a debug build")]
fn eight_million_entries() {
    life(1 << 23);
}
