// Erased from crates/lru_tenants_tests/src/trials.rt: do not edit.
//! A hundred thousand tenants, opened by a list of calls.
#[allow(unused_imports)]
use crate::rattle_std::prelude::*;

use crate::erased::lru_tenants::{ByWeight, TenantCache, TenantCall, run_tenants};
use crate::erased::schnellru::RandomState;
use crate::programs::test_helpers::check;
use crate::rattle_std::alloc::Global;

type Cache = TenantCache<u64, u64, u64, ByWeight<2>>;

const TENANTS: u64 = 100_000;

fn open_all(alloc: Global, cache: &mut Cache) -> usize {
    let mut calls = Vec::new(alloc);
    for name in 0..TENANTS {
        let _ = calls.push(TenantCall::Open(name, 20));
    }
    match run_tenants(alloc, cache, calls) {
        Ok(answers) => answers.len(),
        Err(_) => 0,
    }
}

#[test]
fn a_hundred_thousand_tenants() {
    let run = |rt: HostRuntime| -> () {
        let hasher = RandomState::with_seeds([1, 2, 3, 4]);
        let mut cache = TenantCache::with_hasher(rt.alloc(), hasher);
        check!(rt; open_all(rt.alloc(), &mut cache) == TENANTS as usize);
        for name in 0..TENANTS {
            check!(rt; cache.put(&name, 1, 4) == Ok(true));
        }
        for name in 0..TENANTS {
            check!(rt; cache.close(&name) == Ok(1));
        }
        check!(rt; cache.is_empty() && cache.open(7, u64::MAX) == Ok(()));
    };
    run(HostRuntime).passes();
}
