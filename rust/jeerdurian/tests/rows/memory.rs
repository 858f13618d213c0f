//! Worked examples in which each request for memory is refused.

use crate::helpers::*;
use crate::refusing::refused;
use jeerdurian::{ByCost, ByMemoryUsage, LruMap, More, UnlimitedCompact};

/// Calls `f` on a fresh map with the n-th request for memory refused, for n = 1, 2, .., until none is refused. `f`
/// returns whether it failed. After a failure, `check` checks the map, and makes the call again. Returns the number of
/// refused requests.
fn refuse_each<M>(new: impl Fn() -> M, f: impl Fn(&mut M) -> bool, check: impl Fn(&mut M)) -> u64 {
    for n in 1.. {
        let mut map = new();
        let (failed, was_refused) = refused(n, || f(&mut map));
        assert_eq!(failed, was_refused, "request {n}");
        if !was_refused {
            return n - 1;
        }
        check(&mut map);
    }
    unreachable!()
}

#[test]
fn a_growth_out_of_memory() {
    let count = refuse_each(
        || fill(LruMap::with_seed(UnlimitedCompact, SEED), 1..=7),
        |map| map.fallible().insert(8, 80).is_err(),
        |map| {
            assert_eq!(entries(map), tens((1..=7).rev()));
            assert_eq!((map.guaranteed_capacity(), map.move_report()), (7, report(3, 7)));
            assert!(map.insert(8, 80));
            assert_eq!(map.move_report(), report(10, 8));
        },
    );
    assert_eq!(count, 3);
}

#[test]
fn a_running_total_out_of_memory() {
    let count = refuse_each(
        || {
            let mut map = LruMap::with_seed(Logging::new(ByCost::new(100)), SEED);
            (1..=3).for_each(|n| assert!(map.insert(n, n)));
            map.limiter_mut().log.clear();
            map
        },
        |map| map.fallible().insert(4, 4).is_err(),
        |map| {
            assert_eq!((entries(map), map.limiter().limiter.cost()), (vec![(3, 3), (2, 2), (1, 1)], 6));
            assert!(matches!(map.limiter().log[..], [Grow(_), Removed(4, 4)]));
        },
    );
    assert_eq!(count, 3);
}

/// The growth is refused first, and 15 entries are evicted for a rehash, which runs out of memory.
#[test]
fn a_rehash_after_a_refused_growth_out_of_memory() {
    let count = refuse_each(
        || {
            let map = LruMap::with_hasher(Logging::new(ByMemoryUsage::new(560)), Thousands::default());
            let mut map = fill(map, 1..=28);
            map.limiter_mut().log.clear();
            map
        },
        |map| map.fallible().insert(OF_HASH_28, 0).is_err(),
        |map| {
            assert_eq!(entries(map), tens((16..=28).rev()));
            assert_eq!((map.guaranteed_capacity(), map.memory_usage()), (13, 560));
            assert_eq!(map.move_report(), report(24, 28));
            assert_eq!(map.limiter().log[..2], [Grow(1104), Removed(1, 10)]);
            map.limiter_mut().log.clear();
            assert!(map.insert(OF_HASH_28, 0));
            assert_eq!((map.len(), map.guaranteed_capacity()), (14, 28));
            assert_eq!(map.move_report(), report(37, 29));
            assert!(map.limiter().log.is_empty());
        },
    );
    assert_eq!(count, 2);
}

#[test]
fn a_reservation_in_an_emptied_table_takes_no_memory() {
    let mut map = fill(LruMap::with_hasher(UnlimitedCompact, Thousands::default()), 1..=27);
    (1..=27).for_each(|n| assert_eq!(map.remove(&n), Some(10 * n)));
    assert_eq!(map.guaranteed_capacity(), 1);
    assert_eq!(refused(1, || map.try_reserve(2)), (Ok(()), false));
    assert_eq!(map.guaranteed_capacity(), 28);
}

#[test]
fn a_copy_out_of_memory_leaves_its_source() {
    let count = refuse_each(
        || fill(LruMap::with_seed(UnlimitedCompact, SEED), 1..=7),
        |map| map.fallible().clone().is_err(),
        |map| {
            assert_eq!(entries(map), tens((1..=7).rev()));
            assert_eq!((map.guaranteed_capacity(), map.move_report()), (7, report(3, 7)));
        },
    );
    assert_eq!(count, 2);
}
