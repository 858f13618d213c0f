//! The tenants and the ordered map, compared with plain lists. With keys whose `==` and `Hash` return anything and
//! panic, nothing is dropped twice or used after its drop.

use jeerdurian::caches::{CountedMap, Counts, Loader, Memo, OrderedMap};
use jeerdurian::tenants::TenantCache;
use jeerdurian::trace::{ByteCurve, Curve};
use jeerdurian::{ByCost, ByLength, ByMemoryUsage, LruMap, RandomState};
use std::cell::Cell;
use std::collections::BTreeMap;
use std::hash::{Hash, Hasher};
use std::panic::{AssertUnwindSafe, catch_unwind};

thread_local! {
    /// How many keys live.
    static LIVE: Cell<i64> = const { Cell::new(0) };
    /// The state of a generator. If it is not zero, `==` and `Hash` return anything: keys *lie*.
    static LIES: Cell<u64> = const { Cell::new(0) };
}

/// The next random number below `n` of a generator.
fn next(state: &mut u64, n: u64) -> u64 {
    *state = state.wrapping_mul(6364136223846793005).wrapping_add(1442695040888963407);
    (*state >> 33) % n
}

/// A random number below `n`, or zero if no key lies.
fn any(n: u64) -> u64 {
    let mut state = LIES.get();
    if state == 0 {
        return 0;
    }
    let number = next(&mut state, n);
    LIES.set(state);
    number
}

/// A key that owns memory, and knows whether it lives.
#[derive(Debug)]
struct Key(Box<u64>);

impl Key {
    fn new(number: u64) -> Self {
        LIVE.set(LIVE.get() + 1);
        Key(Box::new(number))
    }
}

impl Drop for Key {
    fn drop(&mut self) {
        LIVE.set(LIVE.get() - 1);
    }
}

impl PartialEq for Key {
    fn eq(&self, other: &Self) -> bool {
        assert!(any(100) != 99, "the `==` panics");
        if any(4) == 3 { any(2) == 1 } else { self.0 == other.0 }
    }
}

impl Eq for Key {}

impl Hash for Key {
    fn hash<H: Hasher>(&self, hasher: &mut H) {
        assert!(any(100) != 99, "the `Hash` panics");
        (*self.0 + any(3)).hash(hasher);
    }
}

/// Makes a call, which may panic while keys lie.
fn lying(seed: u64, f: impl FnOnce()) {
    LIES.set(seed | 1);
    _ = catch_unwind(AssertUnwindSafe(f));
    LIES.set(0);
}

fn change(map: &mut OrderedMap<Key, Key>, kind: u64, n: u64) {
    match kind {
        0..=9 => _ = map.insert(Key::new(n), Key::new(n)),
        10..=12 => _ = map.remove(&Key::new(n)),
        13 => _ = map.pop_first(),
        14 => _ = map.pop_last(),
        15 => _ = map.move_to_back(&Key::new(n)),
        16 => _ = map.get_mut(&Key::new(n)).map(|value| *value = Key::new(n)),
        17 => map.retain(|key, _| *key.0 % 3 != 1),
        18 => {
            _ = (map.try_reserve(n as usize), map.shrink_to_fit());
            let lent: Vec<_> = map.iter_mut().collect();
            lent.into_iter().for_each(|(key, value)| *value = Key::new(*key.0));
        }
        _ => _ = std::mem::take(map).into_iter().nth(n as usize),
    }
}

#[test]
fn ordered_maps_of_keys_that_lie() {
    std::panic::set_hook(Box::new(|_| {}));
    for seed in 1..300u64 {
        let (mut state, mut map) = (seed, OrderedMap::new());
        for _ in 0..200 {
            let (kind, n) = (next(&mut state, 20), next(&mut state, 40));
            lying(state, || change(&mut map, kind, n));
            assert_eq!(map.iter().count(), map.len());
            assert!(map.keys().rev().all(|key| *key.0 < 40));
        }
    }
}

#[test]
fn ordered_maps_are_lists() {
    for seed in 1..100u64 {
        let (mut state, mut map, mut list) = (seed, OrderedMap::new(), Vec::<u64>::new());
        for _ in 0..300 {
            let (kind, n) = (next(&mut state, 19), next(&mut state, 40));
            change(&mut map, kind, n);
            let place = list.iter().position(|key| *key == n);
            match kind {
                0..=9 if place.is_none() => list.push(n),
                10..=12 => _ = place.map(|place| list.remove(place)),
                13 if !list.is_empty() => _ = list.remove(0),
                14 => _ = list.pop(),
                15 => _ = place.map(|place| list[place..].rotate_left(1)),
                17 => list.retain(|key| key % 3 != 1),
                _ => {}
            }
            assert!(map.keys().map(|key| *key.0).eq(list.iter().copied()), "seed {seed}");
        }
        drop(map);
        assert_eq!(LIVE.get(), 0, "seed {seed}");
    }
}

type Tenants = TenantCache<Key, Key, u64, ByCost, RandomState>;

fn serve(cache: &mut Tenants, kind: u64, name: u64, n: u64) {
    let name = Key::new(name);
    match kind {
        0..=2 => _ = cache.open(name, n),
        3 => _ = cache.close(&name),
        4 => _ = cache.close_with(&name, |_, _| assert!(any(9) != 8)),
        5..=14 => _ = cache.put(&name, Key::new(n), n / 3),
        15 => _ = cache.put_full(&name, Key::new(n), n / 3, |_, _| assert!(any(9) != 8)),
        16 => _ = cache.get_or_put(&name, Key::new(n), || n / 3),
        17 => _ = cache.remove(&name, &Key::new(n)),
        18 => _ = cache.set_budget_with(&name, n, |_, _| assert!(any(9) != 8)),
        19 => _ = cache.clear(&name),
        20 => _ = cache.set_total_limit((n > 5).then_some(n * 3)),
        _ => _ = cache.get(&name, &Key::new(n)),
    }
}

#[test]
fn tenants_with_names_and_keys_that_lie() {
    std::panic::set_hook(Box::new(|_| {}));
    for seed in 1..300u64 {
        let (mut state, mut cache) = (seed, Tenants::new());
        for _ in 0..300 {
            let (kind, name, n) = (next(&mut state, 25), next(&mut state, 5), next(&mut state, 40));
            lying(state, || serve(&mut cache, kind, name, n));
            assert_eq!(cache.names().count(), cache.len());
        }
    }
}

/// Inserts into the list of a tenant, newest first, whose values are a third of their keys.
fn put(list: &mut Vec<u64>, budget: u64, n: u64) {
    list.retain(|key| *key != n);
    if n / 3 <= budget {
        list.insert(0, n);
    }
    trim(list, budget);
}

fn trim(list: &mut Vec<u64>, budget: u64) {
    while list.iter().map(|key| key / 3).sum::<u64>() > budget {
        list.pop();
    }
}

/// Changes the budgets and the keys of plain tenants, the newest key first, as a call should.
fn serve_lists(lists: &mut BTreeMap<u64, (u64, Vec<u64>)>, kind: u64, name: u64, n: u64) {
    match (kind, lists.get_mut(&name)) {
        (0..=2, None) => _ = lists.insert(name, (n, Vec::new())),
        (3..=4, _) => _ = lists.remove(&name),
        (16, Some((_, list))) if list.contains(&n) => {
            list.retain(|key| *key != n);
            list.insert(0, n);
        }
        (5..=16, Some((budget, list))) => put(list, *budget, n),
        (17, Some((_, list))) => list.retain(|key| *key != n),
        (18, Some((budget, list))) => {
            *budget = n;
            trim(list, n);
        }
        (19, Some((_, list))) => list.clear(),
        _ => {}
    }
}

#[test]
fn tenants_are_lists() {
    for seed in 1..100u64 {
        let (mut state, mut cache) = (seed, Tenants::new());
        let mut lists = BTreeMap::<u64, (u64, Vec<u64>)>::new();
        for _ in 0..500 {
            let (kind, name, n) = (next(&mut state, 20), next(&mut state, 5), next(&mut state, 40));
            serve(&mut cache, kind, name, n);
            serve_lists(&mut lists, kind, name, n);
            for (name, (budget, list)) in &lists {
                let name = Key::new(*name);
                let cost = list.iter().map(|key| key / 3).sum();
                assert_eq!((cache.budget(&name), cache.cost(&name)), (Ok(*budget), Ok(cost)), "seed {seed}");
                assert_eq!(cache.entries(&name), Ok(list.len()));
                assert!(list.iter().all(|key| cache.peek(&name, &Key::new(*key)) == Ok(Some(&(key / 3)))));
            }
            assert_eq!([cache.len(), cache.names().len(), cache.names().count()], [lists.len(); 3]);
            assert_eq!(cache.total_budget(), lists.values().map(|(budget, _)| u128::from(*budget)).sum());
        }
        drop(cache);
        assert_eq!(LIVE.get(), 0, "seed {seed}");
    }
}

#[test]
fn a_tenant_loses_what_was_used_first() {
    let mut cache: TenantCache<u64, u64, u64> = TenantCache::new();
    assert_eq!(cache.open(1, 2), Ok(()));
    (0..2).for_each(|n| assert_eq!(cache.put(&1, n, 1), Ok(true)));
    assert_eq!(cache.get(&1, &0), Ok(Some(&1)));
    let mut lost = Vec::new();
    assert!(cache.put_full(&1, 2, 1, |key, value| lost.push((key, value))).is_ok());
    assert_eq!((&lost, cache.contains(&1, &0)), (&vec![(1, 1)], Ok(true)));
    assert_eq!(cache.put_with(&1, 3, 2, |key, value| lost.push((key, value))), Ok(true));
    assert_eq!(lost, [(1, 1), (0, 1), (2, 1)]);
}

#[test]
fn a_total_limit_is_set_and_taken_back() {
    let mut cache: TenantCache<u64, u64, u64> = TenantCache::new();
    assert_eq!((cache.set_total_limit(Some(5)), cache.total_limit()), (Ok(()), Some(5)));
    assert_eq!((cache.open(1, 3), cache.open(2, 3).is_err()), (Ok(()), true));
    assert_eq!((cache.set_total_limit(None), cache.total_limit()), (Ok(()), None));
    assert_eq!(cache.open(2, 3), Ok(()));
    assert_eq!(format!("{cache:?}"), "TenantCache { len: 2, .. }");
}

#[test]
fn equal_ordered_maps_have_one_order() {
    let map = |keys: [u64; 3]| {
        let mut map = OrderedMap::new();
        keys.into_iter().for_each(|n| assert_eq!(map.insert(n, n), Ok(None)));
        map
    };
    assert!(map([1, 2, 3]) == map([1, 2, 3]));
    assert!(map([1, 2, 3]) != map([1, 3, 2]));
}

/// A memo within a limit of bytes keeps what a map within this limit keeps.
#[test]
fn memos_count_the_bytes_of_their_entries() {
    type S = std::hash::BuildHasherDefault<std::hash::DefaultHasher>;
    let limit = ByMemoryUsage::new(5000);
    let mut map = LruMap::with_hasher(limit, S::new());
    let mut memo = Memo::with_hasher(limit, S::new(), |n: &u64| *n);
    let mut loader = Loader::with_hasher(limit, S::new(), |n: &u64| Ok::<_, ()>(*n));
    for n in 0..500u64 {
        assert_eq!((map.insert(n, n), memo.answer(n), loader.load(n)), (true, n, Ok(n)));
        assert_eq!((memo.len(), loader.len()), (map.len(), map.len()));
    }
}

/// A memo under `limiter().with_limit(..)` keeps its running total. Its values need only be `Clone`.
#[test]
fn memos_keep_their_total_under_a_new_limit() {
    let text = |n: &u64| "x".repeat(*n as usize);
    let mut memo = Memo::new(ByCost::new(30), text);
    let mut loader = Loader::new(ByCost::new(30), |n: &u64| Ok::<_, ()>(text(n)));
    assert_eq!((memo.answer_full(10), memo.answer_full(10)), ((text(&10), true), (text(&10), false)));
    assert_eq!((memo.answer(12), memo.limiter().cost()), (text(&12), 22));
    let old = memo.set_limiter(memo.limiter().with_limit(15));
    assert_eq!((old.cost(), memo.len(), memo.limiter().cost()), (22, 1, 12));
    assert_eq!((memo.get(&10), memo.get(&12), loader.load(7)), (None, Some(text(&12)), Ok(text(&7))));
}

/// Memos and loaders call their functions once for an answer that is not stored, also while they evict.
#[test]
fn memos_call_their_functions_once() {
    let (mut state, calls) = (5, Cell::new(0));
    let count = || calls.set(calls.get() + 1);
    let mut memo = Memo::new(ByLength::new(60), |n: &u64| (count(), n * n).1);
    let mut loader = Loader::new(ByLength::new(60), |n: &u64| (count(), Ok::<_, ()>(n * n)).1);
    for _ in 0..10_000 {
        let key = next(&mut state, 100);
        let is_new = memo.get(&key).is_none();
        let lends = next(&mut state, 2) == 0;
        let given = if lends { (memo.answer_with(key, |it| *it), is_new) } else { memo.answer_full(key) };
        assert_eq!((given, calls.replace(0)), ((key * key, is_new), u32::from(is_new)));
        assert_eq!(memo.get(&key), Some(key * key));
        assert_eq!((loader.load(key), calls.replace(0)), (Ok(key * key), u32::from(is_new)));
    }
    memo.clear();
    assert!(memo.is_empty() && loader.len() == 60);
}

#[test]
fn a_curve_of_many_keys() {
    let mut curve = Curve::new().unwrap();
    (0..6000).chain(0..6000).for_each(|n: u32| assert_eq!(curve.refer(&n.to_string()), Ok(())));
    assert_eq!((curve.keys(), curve.references()), (6000, 12_000));
    assert_eq!([1, 60, 5999, 6000].map(|n| curve.misses(n)), [12_000, 12_000, 12_000, 6000]);
}

/// Makes a call on a map that counts and on a list of keys with values, newest first, and counts the call.
fn count(counted: &mut CountedMap<Key, Key>, list: &mut Vec<(u64, u64)>, limit: usize, call: [u64; 3]) -> Counts {
    let ([kind, key, value], mut counts) = (call, Counts::default());
    let (name, place) = (Key::new(key), list.iter().position(|entry| entry.0 == key));
    let old = place.map(|place| list[place].1);
    assert_eq!(counted.peek(&name).map(|it| *it.0), old);
    match kind {
        0 | 1 => {
            assert_eq!(counted.get(&name).map(|it| *it.0), old);
            counts = Counts { hits: old.is_some() as u64, misses: old.is_none() as u64, ..counts };
            place.into_iter().for_each(|place| list[..=place].rotate_right(1));
        }
        2 | 3 => {
            assert!(counted.insert(Key::new(key), Key::new(value)));
            place.into_iter().for_each(|place| _ = list.remove(place));
            list.insert(0, (key, value));
            counts = Counts { insertions: 1, evictions: (list.len() > limit) as u64, ..counts };
            list.truncate(limit);
        }
        _ => assert_eq!(counted.remove(&name).map(|it| *it.0), place.map(|place| list.remove(place).1)),
    }
    counts
}

#[test]
fn counts_are_those_of_a_plain_list() {
    for (limit, keys) in [(1, 3), (50, 120), (1500, 4000)] {
        let mut counted = CountedMap::new(LruMap::new(ByLength::new(limit as u32)));
        let (mut state, mut list, mut most) = (7, Vec::new(), 0);
        for value in 0..20_000 {
            let call = [next(&mut state, 5), next(&mut state, keys), value];
            let counts = count(&mut counted, &mut list, limit, call);
            assert_eq!(if value % 2 == 0 { counted.take_counts() } else { counted.counts() }, counts, "call {value}");
            assert_eq!(counted.take_counts(), if value % 2 == 0 { Counts::default() } else { counts });
            assert_eq!((counted.len(), counted.is_empty()), (list.len(), list.is_empty()));
            assert_eq!(LIVE.get(), 2 * list.len() as i64);
            most = most.max(list.len());
        }
        let map = counted.into_map();
        assert!(map.iter().map(|(key, value)| (*key.0, *value.0)).eq(list) && most == limit);
    }
    assert_eq!(LIVE.get(), 0);
}

/// Counts add up, a rejection of a new value evicts nothing, and one insert may evict many entries.
#[test]
fn rejections_and_evictions_are_counted() {
    let mut counted = CountedMap::new(LruMap::<u64, u64, _>::new(ByCost::new(100)));
    (0..100).for_each(|n| assert!(counted.insert(n, 1)));
    assert!(!counted.insert(5, 101) && !counted.insert(200, 101));
    assert_eq!(counted.counts(), Counts { insertions: 100, rejections: 2, ..Counts::default() });
    assert!(counted.insert(7, 70));
    assert_eq!(counted.counts(), Counts { insertions: 101, rejections: 2, evictions: 68, ..Counts::default() });
    assert_eq!((counted.peek(&5), counted.len()), (None, 31));
    let mut counted = CountedMap::new(LruMap::<u64, u64, _>::new(ByLength::new(0)));
    assert!(!counted.insert(1, 1) && !counted.insert(1, 1));
    assert_eq!(counted.counts(), Counts { rejections: 2, ..Counts::default() });
}

#[test]
fn a_curve_of_bytes_is_a_simulation() {
    let limits = [0, 100, 700, 3000];
    let mut curve = ByteCurve::new(&limits).unwrap();
    // For each limit, the keys of a cache, the newest first, and its number of misses.
    let mut caches: Vec<(u64, Vec<u64>, u64)> = limits.iter().map(|limit| (*limit, Vec::new(), 0)).collect();
    let size = |key: u64| key * 13 % 97;
    let mut state = 3;
    for _ in 0..20_000 {
        let key = next(&mut state, 200).min(next(&mut state, 200));
        curve.refer(&key.to_string(), size(key)).unwrap();
        for (limit, keys, missed) in &mut caches {
            match keys.iter().position(|other| *other == key) {
                Some(place) => drop(keys.remove(place)),
                None => *missed += 1,
            }
            keys.insert(0, key);
            while keys.iter().map(|key| size(*key)).sum::<u64>() > *limit {
                keys.pop();
            }
        }
    }
    for (limit, _, missed) in caches {
        assert_eq!(curve.misses(limit), Some(missed), "{limit} bytes");
    }
}
