// Erased from crates/lru_tenants_tests/src/examples.rt: do not edit.
//! Written by `docs/examples.py` from the examples in the doc comments. Do not change it by hand.
#[allow(unused_imports)]
use crate::rattle_std::prelude::*;

use crate::erased::lru_tenants::{
    ByCost, ByWeight, ByteTenants, Counting, Counts, TenantAnswer, TenantCache, TenantCall, TenantError, TenantPool,
    run_tenants,
};
use crate::erased::schnellru::RandomState;
use crate::programs::lru_tenants_tests::numbers::{Bytes, Counted, Numbers, Shared, recount, refill, reopen, restock};
use crate::programs::test_helpers::{all, check};
use crate::rattle_std::test::Fail;

fn bytes_1(bytes: &mut Bytes) -> bool {
    all!(
        reopen(bytes),
        bytes.len() == 1,
        bytes.limit() == 4000,
        bytes.left() < 3500,
        reopen(bytes),
        bytes.peek(&1, &7) == Ok(Some(&2)),
        bytes.get(&1, &7) == Ok(Some(&2))
    )
}

fn bytes_2(bytes: &mut Bytes) -> bool {
    all!(
        reopen(bytes),
        (bytes.open(1, 100), bytes.open(2, 100)) == (Err(TenantError::AlreadyOpen), Ok(())),
        bytes.open(3, 3500) == Err(TenantError::OverTotal),
        reopen(bytes),
        (bytes.put(&1, 8, 3), bytes.put(&9, 8, 3)) == (Ok(true), Err(TenantError::NotOpen)),
        reopen(bytes),
        (bytes.close(&1), bytes.open(2, 500)) == (Ok(1), Ok(())),
        reopen(bytes),
        (bytes.remove(&1, &7), bytes.remove(&1, &7)) == (Ok(Some(2)), Ok(None))
    )
}

#[test]
fn on_a_bytes() {
    let run = |rt: HostRuntime| -> () {
        let alloc = rt.alloc();
        let mut bytes: Bytes = ByteTenants::new(alloc, [1, 2, 3, 4], 4000);
        let held = all!(bytes_1(&mut bytes), bytes_2(&mut bytes));
        check!(rt; held);
    };
    run(HostRuntime).passes();
}

fn counted_1(counted: &mut Counted) -> Result<bool, TenantError> {
    let held = all!(recount(counted), counted.counts(&1)?.insertions == 1, recount(counted));
    let mut counts = counted.counts(&1)?;
    counts.count_look_up(false);
    Ok(held
        & all!(
            (counted.set_counts(&1, counts), counted.counts(&1)) == (Ok(()), Ok(counts)),
            recount(counted),
            counted.take_counts(&1)?.insertions == 1,
            counted.counts(&1) == Ok(Counts::default()),
            recount(counted),
            counted.get_counted(&1, &7) == Ok(Some(&2)),
            counted.counts(&1)?.hits == 1
        ))
}

fn counted_2(counted: &mut Counted) -> Result<bool, TenantError> {
    let held =
        all!(recount(counted), (counted.put_counted(&1, 8, 2), counted.put_counted(&1, 9, 4)) == (Ok(true), Ok(false)));
    let counts = counted.counts(&1)?;
    let held = held
        & all!(
            (counts.insertions, counts.rejections, counts.evictions) == (2, 1, 1),
            recount(counted),
            counted.get_or_put_counted(&1, 7, || 3) == Ok(Some(&2)),
            counted.get_or_put_counted(&1, 8, || 2) == Ok(Some(&2))
        );
    let counts = counted.counts(&1)?;
    Ok(held & all!((counts.hits, counts.misses, counts.insertions, counts.evictions) == (1, 1, 2, 1)))
}

fn counted_3(counted: &mut Counted) -> Result<bool, TenantError> {
    let held =
        all!(recount(counted), counted.get_counted(&1, &7) == Ok(Some(&2)), counted.get_counted(&1, &8) == Ok(None));
    let counts = counted.counts(&1)?;
    Ok(held & all!((counts.hits, counts.misses, counts.insertions) == (1, 1, 1)))
}

#[test]
fn on_a_counted() {
    let run = |rt: HostRuntime| -> () {
        let alloc = rt.alloc();
        let mut counted: Counted = TenantCache::with_hasher(alloc, RandomState::with_seeds([1, 2, 3, 4]));
        let held = all!(
            counted_1(&mut counted).unwrap_or(false),
            counted_2(&mut counted).unwrap_or(false),
            counted_3(&mut counted).unwrap_or(false)
        );
        check!(rt; held);
    };
    run(HostRuntime).passes();
}

fn cache_1(cache: &mut Numbers) -> Result<bool, TenantError> {
    let held = all!(
        refill(cache),
        cache.get_or_put(&1, 7, || 3) == Ok(Some(&2)),
        cache.get_or_put(&1, 8, || 1) == Ok(Some(&1)),
        refill(cache)
    );
    let mut left = 0u64;
    let held = held & all!(cache.put_with(&1, 8, 3, &mut |key, _| left = key) == Ok(true), left == 7, refill(cache));
    let replaced = cache.put_full(&1, 7, 3, &mut |_, _| {})?;
    let held = held & all!((replaced.kept, replaced.unkept) == (true, Some(2)));
    let rejected = cache.put_full(&1, 8, 9, &mut |_, _| {})?;
    Ok(held & all!((rejected.kept, rejected.unkept) == (false, Some(9))))
}

fn cache_2(cache: &mut Numbers) -> bool {
    let held = refill(cache);
    let mut evicted = 0u64;
    let held =
        held & all!(cache.set_budget_with(&1, 1, &mut |key, _| evicted = key) == Ok(()), evicted == 7, refill(cache));
    let mut last = 0u64;
    held & all!(
        cache.close_with(&1, &mut |key, _| last = key) == Ok(1),
        last == 7,
        refill(cache),
        cache.get(&1, &7) == Ok(Some(&2)),
        refill(cache),
        cache.peek(&1, &7) == Ok(Some(&2))
    )
}

fn cache_3(cache: &mut Numbers) -> Result<bool, TenantError> {
    Ok(all!(
        refill(cache),
        cache.contains(&1, &7) == Ok(true),
        cache.iter(&1)?.next() == Some((&7, &2)),
        cache.entries(&1) == Ok(1),
        cache.budget(&1) == Ok(3),
        cache.names().next() == Some(&1),
        (cache.remove(&1, &7), cache.remove(&1, &7)) == (Ok(Some(2)), Ok(None))
    ))
}

fn cache_4(cache: &mut Numbers) -> bool {
    all!(
        refill(cache),
        (cache.put(&1, 8, 1), cache.retain(&1, |key, _| *key == 8)) == (Ok(true), Ok(())),
        (cache.contains(&1, &7), cache.cost(&1)) == (Ok(false), Ok(1)),
        refill(cache),
        (cache.clear(&1), cache.entries(&1), cache.cost(&1)) == (Ok(()), Ok(0), Ok(0)),
        refill(cache),
        cache.set_total_limit(Some(5)) == Ok(()),
        cache.open(2, 3) == Err(TenantError::OverTotal),
        refill(cache),
        cache.set_total_limit(Some(5)) == Ok(()),
        cache.total_limit() == Some(5)
    )
}

fn cache_5(cache: &mut Numbers) -> bool {
    all!(
        refill(cache),
        (cache.total_cost(), cache.total_budget()) == (2, 3),
        (cache.len(), cache.close(&1), cache.len()) == (1, Ok(1), 0),
        refill(cache),
        !cache.is_empty(),
        cache.open(2, 3) == Ok(()),
        cache.open(1, 5) == Err(TenantError::AlreadyOpen),
        refill(cache),
        cache.put(&1, 8, 1) == Ok(true),
        cache.put(&1, 9, 4) == Ok(false)
    )
}

fn cache_6(cache: &mut Numbers) -> bool {
    all!(refill(cache), (cache.set_budget(&1, 1), cache.cost(&1)) == (Ok(()), Ok(0)))
}

#[test]
fn on_a_cache() {
    let run = |rt: HostRuntime| -> () {
        let alloc = rt.alloc();
        let mut cache: Numbers = TenantCache::new(alloc, [1, 2, 3, 4]);
        let held = all!(
            cache_1(&mut cache).unwrap_or(false),
            cache_2(&mut cache),
            cache_3(&mut cache).unwrap_or(false),
            cache_4(&mut cache),
            cache_5(&mut cache),
            cache_6(&mut cache)
        );
        check!(rt; held);
    };
    run(HostRuntime).passes();
}

fn pool_1(pool: &mut Shared) -> bool {
    all!(
        restock(pool),
        pool.len() == 2,
        !pool.is_empty(),
        pool.limit() == 5,
        pool.total_cost() == 2,
        (pool.cost(&1), pool.cost(&9)) == (Ok(2), Err(TenantError::NotOpen)),
        pool.share(&1) == Ok(3)
    )
}

fn pool_2(pool: &mut Shared) -> bool {
    all!(
        restock(pool),
        pool.contains(&1, &7) == Ok(true),
        pool.peek(&1, &7) == Ok(Some(&2)),
        pool.get(&1, &7) == Ok(Some(&2)),
        restock(pool),
        (pool.remove(&1, &7), pool.remove(&1, &7)) == (Ok(Some(2)), Ok(None)),
        restock(pool),
        pool.open(1, 0) == Err(TenantError::AlreadyOpen),
        (pool.open(3, 2), pool.open(3, 1)) == (Err(TenantError::OverTotal), Ok(()))
    )
}

fn pool_3(pool: &mut Shared) -> bool {
    all!(
        restock(pool),
        (pool.put(&2, 8, 3), pool.put(&1, 9, 1)) == (Ok(true), Ok(true)),
        (pool.cost(&1), pool.cost(&2)) == (Ok(3), Ok(0)),
        (pool.put(&2, 8, 6), pool.put(&2, 8, 3)) == (Ok(false), Ok(false)),
        restock(pool),
        (pool.len(), pool.close(&1), pool.len()) == (2, Ok(1), 1)
    )
}

#[test]
fn on_a_pool() {
    let run = |rt: HostRuntime| -> () {
        let alloc = rt.alloc();
        let mut pool: Shared = TenantPool::new(alloc, [1, 2, 3, 4], 5);
        let held = all!(pool_1(&mut pool), pool_2(&mut pool), pool_3(&mut pool));
        check!(rt; held);
    };
    run(HostRuntime).passes();
}

#[test]
fn of_bytes() {
    let run = |rt: HostRuntime| -> () {
        let alloc = rt.alloc();
        let mut bytes: ByteTenants<u64, u64, u64> = ByteTenants::new(alloc, [1, 2, 3, 4], 4000);
        check!(rt; (bytes.open(1, 500), bytes.put(&1, 7, 2)) == (Ok(()), Ok(true)));
    };
    run(HostRuntime).passes();
}

#[test]
fn of_bytes_2() {
    let run = |rt: HostRuntime| -> () {
        let alloc = rt.alloc();
        let bytes: ByteTenants<u64, u64, u64> = ByteTenants::new(alloc, [1, 2, 3, 4], 4000);
        check!(rt; bytes.left() == 4000);
    };
    run(HostRuntime).passes();
}

#[test]
fn of_bytes_3() {
    let run = |rt: HostRuntime| -> Result<(), Fail> {
        let alloc = rt.alloc();
        let bytes: ByteTenants<u64, u64, u64, _> =
            ByteTenants::with_hasher(alloc, crate::rattle_std::collections::hash_map::RandomState::new(&rt)?, 4000);
        check!(rt; bytes.len() == 0);
        Ok(())
    };
    run(HostRuntime).passes();
}

#[test]
fn of_cache() {
    let run = |rt: HostRuntime| -> () {
        let alloc = rt.alloc();
        let mut cache: TenantCache<u64, u64, u64> = TenantCache::new(alloc, [1, 2, 3, 4]);
        let held = all!(cache.open(1, 3) == Ok(()), cache.put(&1, 7, 2) == Ok(true), cache.cost(&1) == Ok(2));
        check!(rt; held);
    };
    run(HostRuntime).passes();
}

#[test]
fn of_cache_2() {
    let run = |rt: HostRuntime| -> Result<(), Fail> {
        let alloc = rt.alloc();
        let mut cache: TenantCache<u64, u64, u64> = TenantCache::new(alloc, [1, 2, 3, 4]);
        let held = cache.is_empty();
        let mut weighed: TenantCache<u64, u64, u64, ByWeight<16>, _> =
            TenantCache::with_hasher(alloc, crate::rattle_std::collections::hash_map::RandomState::new(&rt)?);
        let held =
            held & all!((weighed.open(1, 40), weighed.put(&1, 7, 2)) == (Ok(()), Ok(true)), weighed.cost(&1) == Ok(25));
        check!(rt; held);
        Ok(())
    };
    run(HostRuntime).passes();
}

#[test]
fn of_pool() {
    let run = |rt: HostRuntime| -> () {
        let alloc = rt.alloc();
        let mut pool: TenantPool<u64, u64, u64> = TenantPool::new(alloc, [1, 2, 3, 4], 5);
        let held = all!(
            (pool.open(1, 3), pool.open(2, 1)) == (Ok(()), Ok(())),
            (pool.put(&1, 7, 2), pool.put(&2, 8, 3)) == (Ok(true), Ok(true)),
            (pool.put(&1, 9, 1), pool.cost(&2), pool.cost(&1)) == (Ok(true), Ok(0), Ok(3))
        );
        check!(rt; held);
    };
    run(HostRuntime).passes();
}

#[test]
fn of_pool_2() {
    let run = |rt: HostRuntime| -> Result<(), Fail> {
        let alloc = rt.alloc();
        let mut pool: TenantPool<u64, u64, u64> = TenantPool::new(alloc, [1, 2, 3, 4], 5);
        let held = pool.is_empty();
        let mut weighed: TenantPool<u64, u64, u64, ByWeight<16>, _> =
            TenantPool::with_hasher(alloc, crate::rattle_std::collections::hash_map::RandomState::new(&rt)?, 40);
        let held =
            held & all!((weighed.open(1, 0), weighed.put(&1, 7, 2)) == (Ok(()), Ok(true)), weighed.cost(&1) == Ok(25));
        check!(rt; held);
        Ok(())
    };
    run(HostRuntime).passes();
}

#[test]
fn of_runs() {
    let run = |rt: HostRuntime| -> Result<(), Fail> {
        let alloc = rt.alloc();
        let mut cache: TenantCache<u64, u64, u64> = TenantCache::new(alloc, [1, 2, 3, 4]);
        let calls = vec![in alloc;
            TenantCall::Open(1, 3),
            TenantCall::Put(1, 7, 1),
            TenantCall::Get(2, 7),
        ]?;
        let answers = run_tenants(alloc, &mut cache, calls)?;
        let held = all!(
            answers.get(1) == Some(&TenantAnswer::Put(Ok(true))),
            answers.get(2) == Some(&TenantAnswer::Got(Err(TenantError::NotOpen)))
        );
        check!(rt; held);
        Ok(())
    };
    run(HostRuntime).passes();
}
