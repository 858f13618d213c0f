//! What `peers.sh` does not test of the doors: keys whose `==` and `Hash` are wrong, callbacks that panic, iterators
//! that are forgotten, extreme capacities, types of no size.
#![cfg(all(feature = "lru", feature = "hashlink"))]

mod common;

use common::{Builder, Item, Key, Value, any, told, world};
use jeerdurian::hashlink::{self, lru_cache::Entry, lru_cache::RawEntryMut};
use jeerdurian::lru;
use std::cell::Cell;

type Payload = [u8; 3];

/// The calls of a cache that these tests need.
trait Cache {
    fn make(capacity: usize) -> Self;
    fn call(&mut self, kind: u64, n: u64);
    /// The numbers of its keys and values, from the front, and from the back.
    fn ids(&self) -> [Vec<(u64, u64)>; 2];
    fn len(&self) -> usize;
}

fn id<'a>((key, value): (&'a Key<Payload>, &'a Value<Payload>)) -> (u64, u64) {
    (key.id, value.id)
}

impl Cache for lru::LruCache<Key<Payload>, Value<Payload>, Builder> {
    fn make(capacity: usize) -> Self {
        lru::LruCache::with_hasher(capacity, Builder)
    }

    fn call(&mut self, kind: u64, n: u64) {
        let key = || Item::new(n);
        match kind {
            0..=29 => _ = self.put(key(), Item::new(n)),
            30..=39 => _ = self.push(key(), Item::new(n)),
            40..=49 => _ = self.get_or_insert(key(), || Item::new(any(9))),
            50..=59 => _ = self.get_mut(&key()).map(|value| value.number += 1),
            60..=69 => _ = self.pop_entry(&key()),
            70..=73 => self.resize(n as usize),
            74..=77 => _ = (self.promote(&key()), self.demote(&Item::new(n + 1)), self.get_key_value(&key()).is_some()),
            78..=81 => _ = (self.pop_lru(), self.pop_mru()),
            82..=85 => _ = self.iter_mut().collect::<Vec<_>>().iter_mut().map(|it| it.1.number = it.0.number).count(),
            86 => _ = self.iter_mut().next(),
            87 => *self = self.clone(),
            88 => _ = std::mem::replace(self, Cache::make(20)).into_iter().nth(2),
            89 => self.clear(),
            _ => _ = self.contains(&key()),
        }
    }

    fn ids(&self) -> [Vec<(u64, u64)>; 2] {
        [self.iter().map(id).collect(), self.iter().rev().map(id).collect()]
    }

    fn len(&self) -> usize {
        self.len()
    }
}

impl Cache for hashlink::LruCache<Key<Payload>, Value<Payload>, Builder> {
    fn make(capacity: usize) -> Self {
        hashlink::LruCache::with_hasher(capacity, Builder)
    }

    fn call(&mut self, kind: u64, n: u64) {
        let key = || Item::new(n);
        match kind {
            0..=39 => _ = self.insert(key(), Item::new(n)),
            40..=49 => _ = self.entry(key()).and_modify(|it| it.number += 1).or_insert_with(|| Item::new(any(9))),
            50..=59 => match self.entry(key()) {
                Entry::Occupied(mut entry) if n < 30 => _ = (entry.to_front(), entry.replace_entry(Item::new(n))),
                Entry::Occupied(entry) => _ = entry.remove(),
                Entry::Vacant(entry) => entry.insert(Item::new(n)).number += 1,
            },
            60..=69 => match self.raw_entry_mut().from_hash(any(1 << 60), |_| any(3) == 1) {
                RawEntryMut::Occupied(mut entry) => {
                    _ = (entry.to_front(), entry.get_mut().number += 1, entry.to_back())
                }
                RawEntryMut::Vacant(entry) => entry.insert(key(), Item::new(n)).1.number += 1,
            },
            70..=73 => self.set_capacity(n as usize),
            74..=77 => _ = self.raw_entry_mut().from_key(&key()).or_insert_with(|| (key(), Item::new(n))),
            78..=81 => _ = (self.remove_lru(), self.remove_entry(&key())),
            82..=85 => _ = self.iter_mut().collect::<Vec<_>>().iter_mut().map(|it| it.1.number = it.0.number).count(),
            86 => _ = self.drain().nth(n as usize % 9),
            87 => *self = self.clone(),
            88 => _ = std::mem::replace(self, Cache::make(20)).into_iter().nth(2),
            89 => self.clear(),
            _ => _ = self.contains_key(&key()),
        }
    }

    fn ids(&self) -> [Vec<(u64, u64)>; 2] {
        [self.iter().map(id).collect(), self.iter().rev().map(id).collect()]
    }

    fn len(&self) -> usize {
        self.len()
    }
}

/// Makes, uses and drops a cache. If nothing panics, nothing leaks.
fn life<C: Cache>(seed: u64, lies: u64, panics: u64) {
    world(|it| *it = Default::default());
    let mut next = common::numbers(seed);
    let mut cache = C::make(next(40) as usize);
    for _ in 0..400 {
        let (kind, n) = (next(100), next(60));
        world(|it| (it.lies, it.panics) = (lies * (next(1 << 40) | 1), panics));
        told(|| cache.call(kind, n));
        world(|it| (it.lies, it.panics) = (0, 0));
        let [ids, mut back] = cache.ids();
        back.reverse();
        assert_eq!((cache.len(), &ids), (back.len(), &back));
        world(|it| assert!(ids.iter().all(|(key, value)| it.live.contains(key) && it.live.contains(value))));
    }
    drop(cache);
    if panics == 0 {
        assert_eq!(world(|it| it.live.len()), 0, "seed {seed}");
    }
}

fn lives<C: Cache>() {
    std::panic::set_hook(Box::new(|_| {}));
    for seed in 0..60 {
        life::<C>(seed, 0, 0);
        life::<C>(seed, 1, 0);
        life::<C>(seed, 1, 30);
    }
}

#[test]
fn lru_survives_lies_and_panics() {
    lives::<lru::LruCache<Key<Payload>, Value<Payload>, Builder>>();
}

#[test]
fn hashlink_survives_lies_and_panics() {
    lives::<hashlink::LruCache<Key<Payload>, Value<Payload>, Builder>>();
}

#[test]
fn capacities_at_the_ends() {
    let mut none = lru::LruCache::new(0);
    assert_eq!((none.put(1, 1), none.push(1, 1), none.get_or_insert(1, || 1).copied()), (None, None, None));
    assert!(none.is_empty());
    let mut one = lru::LruCache::new(1);
    assert_eq!((one.push(1, 1), one.push(1, 2), one.push(2, 3)), (None, Some((1, 1)), Some((1, 2))));
    let mut most = lru::LruCache::new(usize::MAX);
    assert_eq!(
        (most.put(1, 1), most.cap(), lru::LruCache::<u8, u8>::unbounded().cap()),
        (None, usize::MAX, usize::MAX)
    );
    most.resize(0);
    assert!(most.is_empty());
}

#[test]
fn an_entry_passes_the_capacity_of_hashlink_by_one() {
    let mut none = hashlink::LruCache::new(0);
    assert_eq!((none.insert(1, 1), none.len()), (None, 0));
    assert_eq!((*none.entry(1).or_insert(1), none.insert(1, 2), none.len()), (1, Some(1), 0));
    let mut one = hashlink::LruCache::new(1);
    one.extend([(1, 1), (2, 2)]);
    one.entry(3).or_insert(3);
    assert!(one.iter().eq([(&2, &2), (&3, &3)]));
    one.insert(4, 4);
    assert!(one.iter().eq([(&3, &3), (&4, &4)]));
    assert_eq!(one.entry(4).key(), &4);
    assert_eq!(one.len(), 1);
    let mut most = hashlink::LruCache::new_unbounded();
    assert_eq!((most.insert(1, 1), most.capacity(), most.entry(1).key()), (None, usize::MAX, &1));
}

#[test]
fn entries_of_hashlink_are_found_moved_and_replaced() {
    let mut cache = hashlink::LruCache::new(3);
    (1..=3).for_each(|n| *cache.entry(n).or_insert(0) += n);
    assert_eq!(cache.peek_mut(&1), Some(&mut 1));
    assert_eq!(keys(&cache), [1, 2, 3]);
    let Entry::Occupied(mut entry) = cache.entry(3) else { panic!("a vacant entry") };
    entry.to_front();
    assert_eq!(entry.replace_key(), 3);
    assert_eq!(keys(&cache), [3, 1, 2]);
    assert_eq!((cache.insert(3, 9), cache.contains_key(&1)), (Some(3), true));
    assert_eq!(keys(&cache), [2, 3, 1]);
    cache.set_capacity(2);
    assert_eq!((cache.insert(4, 4), cache.capacity(), cache.len()), (None, 2, 2));
    assert_eq!(keys(&cache), [1, 4]);
}

fn keys(cache: &hashlink::LruCache<u8, u8>) -> Vec<u8> {
    cache.iter().map(|(key, _)| *key).collect()
}

#[test]
fn a_forgotten_drain_leaves_an_empty_cache() {
    let mut cache = hashlink::LruCache::new(9);
    cache.extend((0..9).map(|n| (n, n.to_string())));
    let mut drain = cache.drain();
    assert_eq!((drain.next(), drain.next_back()), (Some((0, "0".into())), Some((8, "8".into()))));
    std::mem::forget(drain);
    assert!(cache.is_empty() && cache.iter().next().is_none());
    cache.extend((0..20).map(|n| (n, n.to_string())));
    assert_eq!(cache.len(), 9);
}

#[test]
fn types_of_no_size() {
    let mut units = lru::LruCache::unbounded();
    (0..9).for_each(|_| _ = units.put((), ()));
    assert_eq!((units.len(), units.pop_lru()), (1, Some(((), ()))));
    let mut keys = lru::LruCache::new(3);
    (0..9).for_each(|n| _ = keys.put(n, ()));
    assert!(keys.iter_mut().rev().map(|(n, _)| *n).eq([6, 7, 8]));
    let mut entries = hashlink::LruCache::new(1);
    (0..9).for_each(|_| *entries.entry(()).or_insert(()) = ());
    assert_eq!((entries.len(), entries.drain().collect::<Vec<_>>()), (1, vec![((), ())]));
}

#[test]
fn calls_of_later_versions_of_lru() {
    let mut cache = lru::LruCache::new(3);
    (1..=3).for_each(|n| _ = cache.put(n, 10 * n));
    assert_eq!((cache.get_or_insert(1, || 0).copied(), cache.put(2, 20)), (Some(10), Some(20)));
    assert!(cache.iter().map(|(n, _)| *n).eq([2, 1, 3]));
    assert_eq!((cache.promote(&1), cache.demote(&3), cache.promote(&9), cache.demote(&9)), (true, true, false, false));
    assert_eq!((cache.peek_mru(), cache.peek_lru()), (Some((&1, &10)), Some((&3, &30))));
    assert_eq!(cache.get_key_value(&2), Some((&2, &20)));
    assert_eq!(cache.get_key_value(&9), None);
    let mut copy = cache.clone();
    assert_eq!(
        (copy.pop_mru(), copy.pop_mru(), copy.pop_mru(), copy.pop_mru()),
        (Some((2, 20)), Some((1, 10)), Some((3, 30)), None)
    );
    assert_eq!((copy.cap(), cache.len()), (3, 3));
}

#[test]
fn a_panic_of_a_closure_changes_nothing() {
    let mut cache = lru::LruCache::new(1);
    cache.put(1, 1);
    let panics = std::panic::AssertUnwindSafe(|| cache.get_or_insert(2, || panic!("no value")).copied());
    assert!(std::panic::catch_unwind(panics).is_err());
    assert_eq!((cache.len(), cache.peek(&1)), (1, Some(&1)));
}

#[test]
fn auto_traits_variance_and_bounds() {
    fn both<T: Send + Sync + Unpin>() {}
    fn send<T: Send>() {}
    both::<(lru::LruCache<u8, String>, lru::Iter<u8, u8>, lru::IterMut<u8, u8>, lru::IntoIter<u8, u8>)>();
    send::<(lru::LruCache<u8, Cell<u8>>, lru::IterMut<u8, Cell<u8>>, lru::IntoIter<u8, Cell<u8>>)>();
    both::<(
        hashlink::LruCache<u8, String>,
        hashlink::Iter<u8, u8>,
        hashlink::IterMut<u8, u8>,
        hashlink::IntoIter<u8, u8>,
    )>();
    both::<(hashlink::Drain<u8, u8>, Entry<u8, u8, u8>, RawEntryMut<u8, u8, u8>)>();
    send::<(hashlink::LruCache<u8, Cell<u8>>, hashlink::IterMut<u8, Cell<u8>>, Entry<u8, Cell<u8>, u8>)>();
    fn shorter<'a>(it: lru::Iter<'static, u8, u8>) -> lru::Iter<'a, u8, u8> {
        it
    }
    _ = shorter;
    // A struct that contains a cache needs no bounds.
    struct Holds<K, V, S>(lru::LruCache<K, V, S>, hashlink::LruCache<K, V, S>);
    impl<K, V, S> Holds<K, V, S> {
        fn counts(&mut self) -> [usize; 4] {
            [self.0.iter().count(), self.1.iter_mut().count(), self.1.capacity(), self.1.drain().len()]
        }
    }
    let mut holds = Holds(lru::LruCache::new(1), hashlink::LruCache::new(1));
    _ = (holds.0.put(1, 1), holds.1.insert(1, 1));
    assert_eq!((holds.counts(), holds.1.is_empty()), ([1, 1, 1, 1], true));
}

thread_local!(static VALUES: Cell<i64> = const { Cell::new(0) });

/// A key whose drop panics if it has this number.
#[derive(Clone, PartialEq, Eq, Hash)]
struct Bomb(u64);

impl Drop for Bomb {
    fn drop(&mut self) {
        assert!(self.0 != 1 || std::thread::panicking(), "the drop of a key panics");
    }
}

struct Counted;

impl Counted {
    fn new() -> Self {
        VALUES.set(VALUES.get() + 1);
        Counted
    }
}

impl Drop for Counted {
    fn drop(&mut self) {
        VALUES.set(VALUES.get() - 1);
    }
}

/// Calls `f`, in which the drop of a key panics. Each value is dropped.
fn drops_all(what: &str, f: impl FnOnce()) {
    assert!(std::panic::catch_unwind(std::panic::AssertUnwindSafe(f)).is_err(), "{what} does not panic");
    assert_eq!(VALUES.get(), 0, "{what} leaks a value");
}

#[test]
fn values_are_dropped_if_the_drop_of_a_key_panics() {
    std::panic::set_hook(Box::new(|_| {}));
    let linked = || {
        let mut cache = hashlink::LruCache::new(1);
        assert!(cache.insert(Bomb(1), Counted::new()).is_none());
        cache
    };
    drops_all("remove of an entry", || match linked().entry(Bomb(1)) {
        Entry::Occupied(entry) => drop(entry.remove()),
        Entry::Vacant(_) => unreachable!(),
    });
    drops_all("remove of a raw entry", || match linked().raw_entry_mut().from_key(&Bomb(1).clone()) {
        RawEntryMut::Occupied(entry) => drop(entry.remove()),
        RawEntryMut::Vacant(_) => unreachable!(),
    });
    drops_all("remove", || drop(linked().remove(&Bomb(1))));
    drops_all("insert", || drop(linked().insert(Bomb(1), Counted::new())));
    drops_all("an evicting insert", || drop(linked().insert(Bomb(2), Counted::new())));
    let plain = || {
        let mut cache = lru::LruCache::new(1);
        assert!(cache.put(Bomb(1), Counted::new()).is_none());
        cache
    };
    drops_all("pop", || drop(plain().pop(&Bomb(1))));
    drops_all("put", || drop(plain().put(Bomb(1), Counted::new())));
    drops_all("an evicting put", || drop(plain().put(Bomb(2), Counted::new())));
    drops_all("push", || drop(plain().push(Bomb(1), Counted::new())));
    drops_all("get_or_insert", || _ = plain().get_or_insert(Bomb(2), Counted::new));
}
