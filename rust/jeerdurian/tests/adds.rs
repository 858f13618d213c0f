//! What the crate adds to `schnellru` and to the proved sources: impls of Rust's traits, and calls with a callback.

use jeerdurian::caches::{CountedMap, OrderedMap};
use jeerdurian::{
    Both, ByBytes, ByCost, ByLength, Costed, GetOrInsertError, LruMap, More, OwnedBytes, RandomState, ReserveError,
    Unlimited, UnlimitedCompact, Updated,
    trace::{SizeError, TraceError},
};
use std::error::Error;
use std::hash::BuildHasher;
use std::rc::Rc;
use std::sync::Arc;

fn map(n: u64) -> LruMap<u64, u64> {
    let mut map = LruMap::new(ByLength::new(10));
    map.extend((0..n).map(|n| (n, 10 * n)));
    map
}

#[test]
fn errors() {
    let refused: Box<dyn Error> = Box::new(ReserveError::Refused);
    assert_eq!(refused.to_string(), "the limiter refused the larger table");
    let caller: Box<dyn Error> = Box::new(GetOrInsertError::Caller(ReserveError::Memory));
    assert_eq!(caller.to_string(), "the closure failed: out of memory");
    let texts = [
        (TraceError::Read, "read failed"),
        (TraceError::Write, "write failed"),
        (TraceError::Memory, "out of memory"),
        (TraceError::TooLarge, "the sizes of the keys are too large"),
    ];
    texts.iter().for_each(|(error, text)| assert_eq!(error.to_string(), *text));
    assert_eq!(SizeError::TooLarge.to_string(), TraceError::TooLarge.to_string());
}

#[test]
fn costs() {
    let text = "four";
    assert_eq!((text.cost(), Box::<str>::from(text).cost(), Rc::<str>::from(text).cost()), (4, 4, 4));
    assert_eq!((Arc::new(7u64).cost(), (&&9u8).cost(), [3u64, 5].as_slice().cost()), (7, 9, 2));
    assert_eq!((vec![3u64, 5].cost(), Box::new("long".to_string()).cost()), (2, 4));
    let mut map: LruMap<u64, Arc<str>, ByCost> = LruMap::new(ByCost::new(5));
    assert!(map.insert(1, "four".into()) && map.insert(2, "two".into()) && !map.insert(3, "longer".into()));
    assert_eq!((map.limiter().cost(), map.len()), (3, 1));
}

#[test]
fn owned_bytes() {
    assert_eq!([()].owned_bytes() + 4isize.owned_bytes() + 1.5f64.owned_bytes(), 0);
    assert_eq!(1i8.owned_bytes() + 2i16.owned_bytes() + 3i128.owned_bytes() + 0.5f32.owned_bytes(), 0);
    // A block of 17 bytes counts as 32 + 16 bytes.
    let text: Box<str> = "a".repeat(17).into();
    assert_eq!((text.owned_bytes(), Box::<str>::from("").owned_bytes()), (48, 0));
    let pages: Box<[u64]> = Box::new([1; 4]);
    assert_eq!((pages.owned_bytes(), Box::<[u64]>::default().owned_bytes()), (48, 0));
    assert_eq!([text.clone(), text.clone()].owned_bytes(), 96);
    // A block of two pointers with lengths, and both texts.
    assert_eq!(vec![text.clone(), text.clone()].into_boxed_slice().owned_bytes(), 48 + 96);
    assert_eq!(vec![text].owned_bytes(), 32 + 48);
}

#[test]
fn both_limiters_limit() {
    let mut map: LruMap<u64, u64, Both<ByLength, ByCost>> = LruMap::new(Both(ByLength::new(3), ByCost::new(10)));
    assert!(map.insert(1, 4) && map.insert(2, 5) && map.insert(3, 3));
    assert_eq!((map.len(), map.limiter().1.cost()), (2, 8));
    assert!(map.insert(4, 1) && map.insert(5, 1));
    assert_eq!((map.len(), map.limiter().1.cost()), (3, 5));
    assert_eq!(map.try_insert(6, 1), Err((6, 1)));
    assert!(!map.insert(7, 11));
    let bytes = Both(UnlimitedCompact, ByBytes::new(500));
    let mut map: LruMap<u64, String, Both<UnlimitedCompact, ByBytes>> = LruMap::new(bytes);
    (0..50).for_each(|n| assert!(map.insert(n, "a".repeat(20))));
    assert!(map.limiter().1.owned() <= 500 - map.memory_usage() as u64 && map.len() > 1);
}

#[test]
fn maps_are_compared_extended_and_collected() {
    assert!(map(3) == map(3) && map(3) != map(2));
    let mut other = map(3);
    *other.get(&2).unwrap() += 1;
    assert!(other != map(3));
    *other.get(&2).unwrap() -= 1;
    assert!(other == map(3));
    other.promote(&0);
    assert!(other != map(3));
    fn is_eq<T: Eq>(_: &T) {}
    is_eq(&other);
    let collected: LruMap<u64, u64, Unlimited> = (0..100).map(|n| (n % 30, n)).collect();
    assert!(collected.len() == 30 && collected.peek_newest() == Some((&9, &99)));
    let mut many = map(0);
    many.extend((0..100).map(|n| (n, n)));
    assert_eq!(many.len(), 10);

    let ordered: OrderedMap<u64, u64> = (0..5).map(|n| (n % 3, n)).collect();
    let mut copy = ordered.clone();
    assert!(copy == ordered && ordered.iter().eq([(&0, &3), (&1, &4), (&2, &2)]));
    copy.extend([(7, 7), (0, 1)]);
    assert!(copy.iter().eq([(&0, &1), (&1, &4), (&2, &2), (&7, &7)]) && ordered.len() == 3);
}

#[test]
fn callbacks_get_the_evicted_entries() {
    let mut lost = Vec::new();
    let mut five = map(5);
    *five.limiter_mut() = ByLength::new(3);
    five.trim_with(|key, value| lost.push((key, value)));
    assert_eq!(lost, [(0, 0), (1, 10)]);
    let old = five.set_limiter_with(ByLength::new(1), |key, value| lost.push((key, value)));
    assert_eq!((lost.len(), lost[3], old.max_length()), (4, (3, 30), 3));

    let mut costs: LruMap<u64, u64, ByCost> = LruMap::new(ByCost::new(9));
    costs.extend([(1, 4), (2, 5)]);
    assert_eq!(costs.update_with(2, 6, |key, value| lost.push((key, value))), Updated::Replaced(5));
    assert_eq!(lost[4], (1, 4));
    assert_eq!(costs.update_with(2, 10, |key, value| lost.push((key, value))), Updated::Rejected(10));
    assert_eq!((lost.len(), lost[5], costs.len()), (6, (2, 6), 0));
    assert_eq!(costs.update_with(2, 1, |_, _| unreachable!()), Updated::Absent(1));
}

#[test]
fn a_shared_map_is_cloned() {
    let shared = &map(5);
    let copy = shared.try_clone().unwrap();
    assert!(copy == *shared && copy.limiter().max_length() == 10);
}

#[test]
fn seeds_make_hashes() {
    let hash = |seeds| RandomState::with_seeds(seeds).hash_one("key");
    assert!(hash([1, 2, 3, 4]) == hash([1, 2, 3, 4]) && hash([1, 2, 3, 4]) != hash([4, 3, 2, 1]));
    let map = LruMap::<u64, u64, _, _>::with_hasher(ByLength::new(3), RandomState::with_seeds([1, 2, 3, 4]));
    assert_eq!(map.hasher().hash_one(5), RandomState::with_seeds([1, 2, 3, 4]).hash_one(5));
}

#[test]
fn iterators_skip_to_their_end() {
    let mut five = map(5);
    five.get(&2);
    assert_eq!((five.iter().last(), five.iter().count()), (Some((&0, &0)), 5));
    assert_eq!((five.keys().last(), five.values().last(), five.keys().count()), (Some(&0), Some(&0), 5));
    assert_eq!(five.iter_mut().last(), Some((&0, &mut 0)));
    let mut left = five.iter();
    left.next();
    left.next_back();
    assert_eq!((left.clone().count(), left.last()), (3, Some((&1, &10))));
    assert_eq!((map(0).iter().last(), map(0).into_iter().last()), (None, None));
    assert_eq!((map(5).into_iter().last(), map(5).into_iter().count()), (Some((0, 0)), 5));
    assert_eq!((five.drain().last(), five.len()), (Some((0, 0)), 0));
}

#[test]
fn iterators_are_cloned_and_shown() {
    let mut five = map(5);
    let mut keys = five.keys();
    keys.next();
    assert!(keys.clone().eq([&3, &2, &1, &0]) && keys.eq([&3, &2, &1, &0]));
    let mut values = five.values();
    values.next_back();
    assert!(values.clone().eq([&40, &30, &20, &10]) && values.eq([&40, &30, &20, &10]));
    let mut entries = five.iter();
    entries.next();
    assert_eq!(format!("{entries:?} {:?}", five.keys()), "Iter { left: 4, .. } Keys { left: 5, .. }");
    assert_eq!(format!("{:?}", five.fallible()), "Fallible { len: 5, .. }");
    assert_eq!(format!("{:?}", five.drain()), "Drain { left: 5, .. }");
    assert_eq!(format!("{:?}", map(2).into_iter()), "IntoIter { left: 2, .. }");
}

#[test]
fn a_counted_map_lends() {
    let counted = CountedMap::new(map(3));
    assert!(counted.contains(&2) && !counted.contains(&3) && counted.limiter().max_length() == 10);
    assert!(counted.iter().map(|(key, _)| *key).eq([2, 1, 0]));
    assert_eq!((counted.counts().hits, counted.counts().misses), (0, 0));
}

#[test]
fn a_map_may_cross_an_unwinding() {
    let maps = (map(3), LruMap::<u64, std::cell::Cell<u64>, Unlimited>::new(Unlimited));
    assert_eq!(std::panic::catch_unwind(move || maps.0.len() + maps.1.len()).unwrap(), 3);
}
