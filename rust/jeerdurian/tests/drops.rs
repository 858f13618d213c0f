//! Each key, value and closure is dropped once: what calls evict, what they reject, and what closures own.

use jeerdurian::caches::{Loader, Memo};
use jeerdurian::tenants::{Counting, TenantCache, TenantError, TenantPool};
use jeerdurian::{
    ByCost, ByLength, ByMemoryUsage, ByWeight, Costed, Limiter, LruMap, More, Unlimited, UnlimitedCompact,
};
use std::cell::Cell;

thread_local! {
    static LIVE: Cell<usize> = const { Cell::new(0) };
}

/// A number that counts how many of its kind live.
#[derive(PartialEq, Eq, Hash)]
struct Live(u64);

impl Live {
    fn new(n: u64) -> Self {
        LIVE.set(LIVE.get() + 1);
        Live(n)
    }
}

impl Drop for Live {
    fn drop(&mut self) {
        LIVE.set(LIVE.get() - 1);
    }
}

impl Costed for Live {
    fn cost(&self) -> u64 {
        1
    }
}

fn is_alive(n: usize) -> bool {
    LIVE.get() == 2 * n
}

#[test]
fn what_calls_evict_is_dropped() {
    let mut map = LruMap::new(ByLength::new(20_000));
    for n in 0..20_100 {
        assert!(map.insert(Live::new(n), Live::new(n)));
    }
    assert!(is_alive(20_000));
    *map.limiter_mut() = ByLength::new(16_000);
    map.update(Live::new(20_099), Live::new(1));
    assert!(is_alive(16_000));
    *map.limiter_mut() = ByLength::new(12_000);
    map.trim();
    assert!(is_alive(12_000));
    map.set_limiter(ByLength::new(5000));
    assert!(map.remove_entry(&Live::new(20_099)).is_some() && is_alive(4999));
    map.retain(|key, _| key.0 % 2 == 0);
    assert!(is_alive(2500));
    map.retain_with(|key, _| key.0 % 4 == 0, |key, value| drop((key, value)));
    assert!(is_alive(1250));
    let mut entry = map.find_entry(&Live::new(20_000)).unwrap();
    *entry.get_mut() = Live::new(1);
    assert!(entry.get().0 == 1 && entry.remove().0 == 1 && is_alive(1249));
    drop(map.into_iter().next());
    assert!(is_alive(0));
}

type Map = LruMap<Live, Live, UnlimitedCompact>;

/// Makes a call with a closure that owns a value. The closure accepts, rejects or fails.
fn ask(map: &mut Map, call: u64, owned: Live) {
    let accepts = owned.0 == 0;
    // Without the reference, the closure would own only a copy of the number.
    let answer = move |_: &Live, _: &Live| (&owned, accepts).1;
    let hash = std::hash::BuildHasher::hash_one(map.hasher(), Live::new(0));
    match call {
        0 => drop(map.pop_oldest_if(answer)),
        1 => drop(map.peek_by_hash(hash, answer).is_some()),
        2 => drop(map.get_by_hash(hash, answer).is_some()),
        3 => drop(map.peek_by_hash_mut(hash, answer).is_some()),
        4 => map.retain(answer),
        5 => map.retain_with(answer, |key, value| drop((key, value))),
        6 => drop(map.find_entry_by_hash(hash, answer).is_some()),
        7 => drop(map.get_or_insert(Live::new(0), move || Live::new(answer(&Live::new(0), &Live::new(0)) as u64))),
        _ => {
            let make = move || if answer(&Live::new(0), &Live::new(0)) { Ok(Live::new(1)) } else { Err(Live::new(2)) };
            let made = map.get_or_insert_fallible(Live::new(9), make).is_ok();
            assert_eq!(made, accepts);
        }
    }
}

/// A closure is dropped, whether it is called or not, and whatever it returns, on a map with one entry or none.
#[test]
fn closures_are_dropped() {
    for case in 0..36 {
        let mut map = Map::new(UnlimitedCompact);
        if case / 9 % 2 == 1 {
            assert!(map.insert(Live::new(0), Live::new(0)));
        }
        ask(&mut map, case % 9, Live::new(case / 18));
        assert!(is_alive(map.len()), "case {case}");
    }
}

/// Inserts an entry, and offers the key again with another value. Returns for each insert whether the key is in the
/// map.
fn offers<L: for<'a> Limiter<Live, Live, KeyToInsert<'a> = Live>>(limiter: L) -> [bool; 2] {
    let mut map = LruMap::new(limiter);
    let kept = [5, 6].map(|n| {
        let kept = map.insert(Live::new(1), Live::new(n));
        assert!(is_alive(map.len()));
        kept
    });
    drop(map);
    assert!(is_alive(0));
    kept
}

/// A limiter drops what it rejects, and the key that is offered again.
#[test]
fn what_limiters_reject_is_dropped() {
    assert_eq!(offers(ByLength::new(3)), [true; 2]);
    assert_eq!(offers(ByLength::new(0)), [false; 2]);
    assert_eq!(offers(ByMemoryUsage::new(0)), [false; 2]);
    assert_eq!(offers(Unlimited), [true; 2]);
    assert_eq!(offers(UnlimitedCompact), [true; 2]);
    assert_eq!(offers(ByCost::new(1)), [true; 2]);
    assert_eq!(offers(ByCost::new(0)), [false; 2]);
    assert_eq!(offers(ByWeight::<0>::new(2)), [true; 2]);
    assert_eq!(offers(ByWeight::<0>::new(1)), [false; 2]);
}

/// Counted inserts drop what they evict, replace and reject, and a memo drops the keys that it does not store.
#[test]
fn what_counted_inserts_and_memos_do_not_keep_is_dropped() {
    let mut cache: TenantCache<u64, Live, Live, Counting<ByCost>> = TenantCache::new();
    assert_eq!((cache.open(1, 60), cache.open(2, 0)), (Ok(()), Ok(())));
    let mut memo = Memo::new(ByLength::new(60), |key: &Live| key.0);
    for n in 0..1000 {
        let kept = [1, 2, 3].map(|name| cache.put_counted(&name, Live::new(n % 97), Live::new(n)));
        assert_eq!((kept[0], kept[1], kept[2].is_err()), (Ok(true), Ok(false), true));
        for (name, kept) in [(1, Ok(true)), (2, Ok(false)), (3, Err(TenantError::NotOpen))] {
            let got = cache.get_or_put_counted(&name, Live::new(n * 7 % 89), || Live::new(n));
            assert_eq!(got.map(|it| it.is_some()), kept);
        }
        let key = n * n % 97;
        assert_eq!([0; 2].map(|_| memo.answer_full(Live::new(key)).0), [key; 2]);
        assert_eq!(LIVE.get(), 2 * cache.entries(&1).unwrap() + memo.len(), "call {n}");
    }
    drop((cache, memo));
    assert!(is_alive(0));
}

/// A closure that owns a value, and reads a number.
fn reads(n: u64) -> impl FnOnce(&u64) -> u64 {
    let owned = Live::new(n);
    // Without the reference, the closure would own only a copy of the number.
    move |it| (&owned, *it).1
}

/// Tenants, memos and loaders drop each closure, called or not, and each key and name that they do not store.
#[test]
fn closures_and_names_of_caches_are_dropped() {
    let mut cache: TenantCache<Live, Live, Live, Counting<ByCost>> = TenantCache::new();
    assert_eq!((cache.set_total_limit(Some(60)), cache.open(Live::new(1), 60)), (Ok(()), Ok(())));
    let mut memo = Memo::new(ByLength::new(60), |key: &Live| key.0);
    let mut loader = Loader::new(ByLength::new(60), |key: &Live| if key.0 % 3 == 1 { Ok(key.0) } else { Err(key.0) });
    for n in 0..1000 {
        let (name, key, owned) = (Live::new(1 + n % 2), || Live::new(n * n % 97), || Live::new(n));
        let (first, second, third) = (owned(), owned(), owned());
        assert_eq!(cache.get_or_put(&name, key(), move || first).is_ok(), name.0 == 1);
        assert_eq!(cache.get_or_put_counted(&name, owned(), move || second).is_ok(), name.0 == 1);
        assert_eq!(cache.retain(&name, move |key, _| (&third, key.0 % 50 > 0).1).is_ok(), name.0 == 1);
        assert_eq!(cache.open(Live::new(2), 1), Err(TenantError::OverTotal));
        assert!([0; 2].iter().all(|_| memo.answer_with(key(), reads(n)) == key().0));
        assert_eq!(memo.get_with(&owned(), reads(n)).is_some(), memo.get(&owned()).is_some());
        assert!([0; 2].iter().all(|_| loader.load_with(key(), reads(n)).is_ok() == (key().0 % 3 == 1)));
        drop(name);
        let entries = cache.entries(&Live::new(1)).unwrap();
        assert_eq!(LIVE.get(), 1 + 2 * entries + memo.len() + loader.len(), "call {n}");
    }
}

/// A callback that owns a value.
fn takes(n: u64) -> impl FnMut(Live, Live) {
    let owned = Live::new(n);
    move |_, _| _ = &owned
}

/// Callbacks that get evicted and removed entries are dropped, whether they are called or not.
#[test]
fn callbacks_are_dropped() {
    let mut cache: TenantCache<u64, Live, Live> = TenantCache::new();
    let mut map = LruMap::new(ByLength::new(60));
    assert_eq!(cache.open(1, 60), Ok(()));
    for n in 0..1000 {
        let (name, key, owned) = (1 + n % 2, || Live::new(n * n % 97), || Live::new(n));
        assert_eq!(cache.put_with(&name, key(), owned(), takes(n)).is_ok(), name == 1);
        assert_eq!(cache.put_full(&name, owned(), owned(), takes(n)).is_ok(), name == 1);
        assert_eq!(cache.set_budget_with(&name, 50 + n % 9, takes(n)).is_ok(), name == 1);
        assert_eq!(cache.close_with(&2, takes(n)), Err(TenantError::NotOpen));
        assert!(map.insert_with(key(), owned(), takes(n)) && map.insert_full(owned(), owned(), takes(n)).kept);
        assert!(is_alive(cache.entries(&1).unwrap() + map.len()), "call {n}");
    }
    assert!(cache.close_with(&1, takes(0)).is_ok() && is_alive(map.len()));
}

/// Tenants with many entries pass on or drop each entry, the oldest first.
#[test]
fn many_entries_of_a_tenant_are_dropped() {
    let mut cache: TenantCache<u64, Live, Live> = TenantCache::new();
    let mut pool: TenantPool<u64, Live, Live> = TenantPool::new(6000);
    for _ in 0..2 {
        let mut lost = Vec::new();
        assert_eq!((cache.open(1, 6000), pool.open(1, 0)), (Ok(()), Ok(())));
        for n in 0..6000 {
            assert_eq!(cache.put(&1, Live::new(n), Live::new(n)), Ok(true));
            assert_eq!(pool.put(&1, Live::new(n), Live::new(n)), Ok(true));
        }
        assert_eq!(cache.set_budget_with(&1, 4000, |key, _| lost.push(key.0)), Ok(()));
        assert_eq!((cache.set_budget(&1, 2000), pool.close(&1), is_alive(2000)), (Ok(()), Ok(6000), true));
        assert!(cache.iter(&1).unwrap().map(|entry| entry.0.0).eq((4000..6000).rev()));
        assert_eq!(cache.close_with(&1, |key, _| lost.push(key.0)), Ok(2000));
        assert!(lost.into_iter().eq((0..2000).chain(4000..6000)) && is_alive(0));
        assert_eq!(cache.open(1, 6000), Ok(()));
        (0..6000).for_each(|n| assert_eq!(cache.put(&1, Live::new(n), Live::new(n)), Ok(true)));
        assert_eq!((cache.close(&1), is_alive(0)), (Ok(6000), true));
    }
}
