// Erased from crates/lru_limits_tests/src/examples.rt: do not edit.
//! Written by `docs/examples.py` from the examples in the doc comments. Do not change it by hand.
#[allow(unused_imports)]
use crate::rattle_std::prelude::*;

use crate::erased::lru_limits::{
    Admission, Both, Budgeted, ByBytes, ByCost, ByLength, ByMemoryUsage, ByWeight, Costed, Insertion, KeyHasher,
    Limiter, LookupKey, OwnedBytes, RandomState, Storing, Summing, Unlimited, UnlimitedCompact,
};
use crate::programs::test_helpers::{all, check};
use crate::rattle_std::hash::{BuildHasher, Hash, Hasher};
use crate::rattle_std::test::Fail;

struct Page {
    bytes: u64,
}

impl Costed for Page {
    fn cost(&self) -> u64 {
        self.bytes
    }
}

#[test]
fn of_accounts_budgeted() {
    let run = |rt: HostRuntime| -> () {
        let mut limiter = <ByCost as Budgeted<u64, u64>>::with_budget(3);
        Budgeted::<u64, u64>::set_budget(&mut limiter, 5);
        check!(rt; Budgeted::<u64, u64>::budget(&limiter) == 5);
    };
    run(HostRuntime).passes();
}

#[test]
fn of_accounts_by_bytes() {
    let run = |rt: HostRuntime| -> Result<(), Fail> {
        let alloc = rt.alloc();
        let mut limiter = ByBytes::new(200);
        let held = Limiter::<u64, Vec<u8>>::on_grow(&mut limiter, 152);
        let block: Vec<u8> = Vec::with_capacity(alloc, 17)?;
        let held = held
            & all!(
                limiter.admit(0, &1u64, &block),
                !Limiter::<u64, Vec<u8>>::on_grow(&mut limiter, 153),
                (limiter.owned(), limiter.table()) == (48, 152),
                limiter.with_limit(300).limit() == 300,
                limiter.with_table(0).table() == 0,
                limiter.limit() == 200,
                limiter.owned() == 48,
                limiter.table() == 152
            );
        check!(rt; held);
        Ok(())
    };
    run(HostRuntime).passes();
}

#[test]
fn of_accounts_by_cost() {
    let run = |rt: HostRuntime| -> () {
        let mut limiter = ByCost::new(3);
        let held = all!(limiter.admit(0, &1u64, &2u64) && !limiter.admit(1, &2u64, &4u64), limiter.cost() == 2);
        let lower = limiter.with_limit(1);
        let held = held & all!((lower.limit(), lower.cost()) == (1, 2), limiter.limit() == 3);
        check!(rt; held);
    };
    run(HostRuntime).passes();
}

#[test]
fn of_accounts_by_weight() {
    let run = |rt: HostRuntime| -> () {
        let mut limiter: ByWeight<16> = ByWeight::new(100);
        let held = all!(limiter.admit(0, &1u64, &2u64) && !limiter.admit(1, &80u64, &5u64), limiter.cost() == 19);
        let lower = limiter.with_limit(10);
        let held = held & all!((lower.limit(), lower.cost()) == (10, 19), limiter.limit() == 100);
        check!(rt; held);
    };
    run(HostRuntime).passes();
}

#[test]
fn of_accounts_owned_bytes() {
    let run = |rt: HostRuntime| -> Result<(), Fail> {
        let alloc = rt.alloc();
        let block: Vec<u8> = Vec::with_capacity(alloc, 17)?;
        check!(rt; (block.owned_bytes(), 7u64.owned_bytes()) == (48, 0));
        Ok(())
    };
    run(HostRuntime).passes();
}

#[test]
fn of_accounts() {
    let run = |rt: HostRuntime| -> () {
        let held = Page { bytes: 4096 }.cost() == 4096;
        let limiter = ByCost::new(3);
        let held = held & all!(Summing::<u64, u64>::account(&limiter) == 0);
        check!(rt; held);
    };
    run(HostRuntime).passes();
}

#[test]
fn of_admission() {
    let run = |rt: HostRuntime| -> () {
        let mut limiter = ByLength::new(0);
        let held = all!(
            !limiter.accepts(0, &1u64, &2u64) && !limiter.admit(0, &1u64, &2u64),
            limiter.accepts_in_place(1, &1u64, &2u64, &3u64)
        );
        check!(rt; held);
    };
    run(HostRuntime).passes();
}

#[test]
fn of_hasher() {
    let run = |rt: HostRuntime| -> Result<(), Fail> {
        let alloc = rt.alloc();
        let key = String::from_str(alloc, "a")?;
        let state = RandomState::with_seeds([5, 6, 7, 8]);
        let held = state.hash_by(&"a") == state.hash_by(&key);
        let mut hasher = state.build_hasher();
        key.hash(&mut hasher);
        let held = held & all!(hasher.finish() == state.hash_by(&key));
        check!(rt; held);
        Ok(())
    };
    run(HostRuntime).passes();
}

#[test]
fn of_keys() {
    let run = |rt: HostRuntime| -> Result<(), Fail> {
        let alloc = rt.alloc();
        let state = RandomState::with_seeds([5, 6, 7, 8]);
        let key = String::from_str(rt.alloc(), "a")?;
        let held = all!(
            "a".is_key(&key),
            !"b".is_key(&key),
            KeyHasher::<String>::hash_named(&state, &"a") == state.hash_by(&key)
        );
        check!(rt; held);
        Ok(())
    };
    run(HostRuntime).passes();
}

#[test]
fn of_limiter() {
    let run = |rt: HostRuntime| -> () {
        let limiter = ByLength::new(3);
        let held = all!(
            !Limiter::<u64, u64>::is_over_the_limit(&limiter, 3),
            Limiter::<u64, u64>::is_over_the_limit(&limiter, 4)
        );
        check!(rt; held);
    };
    run(HostRuntime).passes();
}

#[test]
fn of_limiter_2() {
    let run = |rt: HostRuntime| -> Result<(), Fail> {
        let alloc = rt.alloc();
        let mut limiter = ByCost::new(3);
        let held = all!(
            limiter.on_insert(alloc, 0, 1u64, 2u64)?.is_some(),
            limiter.on_insert(alloc, 1, 2u64, 4u64)?.is_none()
        );
        check!(rt; held);
        Ok(())
    };
    run(HostRuntime).passes();
}

#[test]
fn of_limiters_both() {
    let run = |rt: HostRuntime| -> () {
        let mut limiter = Both(ByCost::new(9), ByLength::new(3));
        let held = all!(
            Limiter::<u64, u64>::is_over_the_limit(&limiter, 4),
            !limiter.admit(0, &1u64, &10u64) && limiter.0.cost() == 0,
            limiter.admit(0, &1u64, &8u64) && limiter.0.cost() == 8
        );
        check!(rt; held);
    };
    run(HostRuntime).passes();
}

#[test]
fn of_limiters_by_length() {
    let run = |rt: HostRuntime| -> () {
        let limiter = ByLength::new(3);
        check!(rt; limiter.max_length() == 3);
    };
    run(HostRuntime).passes();
}

#[test]
fn of_limiters_by_memory_usage() {
    let run = |rt: HostRuntime| -> () {
        let mut limiter = ByMemoryUsage::new(152);
        let held = all!(
            Limiter::<u64, u64>::on_grow(&mut limiter, 152),
            !Limiter::<u64, u64>::on_grow(&mut limiter, 153),
            limiter.max_memory_usage() == 152
        );
        check!(rt; held);
    };
    run(HostRuntime).passes();
}

#[test]
fn of_limiters_storing() {
    let run = |rt: HostRuntime| -> () {
        let limiter = Storing(ByLength::new(3));
        check!(rt; Limiter::<u64, u64>::is_over_the_limit(&limiter, 4));
    };
    run(HostRuntime).passes();
}

#[test]
fn of_limiters_unlimited() {
    let run = |rt: HostRuntime| -> () {
        check!(rt; !Limiter::<u64, u64>::is_over_the_limit(&Unlimited, usize::MAX));
    };
    run(HostRuntime).passes();
}

#[test]
fn of_limiters_unlimited_compact() {
    let run = |rt: HostRuntime| -> () {
        check!(rt; !Limiter::<u64, u64>::is_over_the_limit(&UnlimitedCompact, usize::MAX));
    };
    run(HostRuntime).passes();
}
