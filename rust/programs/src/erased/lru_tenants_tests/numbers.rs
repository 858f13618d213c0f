// Erased from crates/lru_tenants_tests/src/numbers.rt: do not edit.
//! The caches of numbers in the examples of the docs. Tests of error texts, and of texts as names and keys.
#[allow(unused_imports)]
use crate::rattle_std::prelude::*;

use crate::erased::lru_tenants::{
    ByCost, ByteTenants, Counting, TenantCache, TenantError, TenantPool, costs_are_within_the_total_limit,
};
use crate::programs::test_helpers::check;
use crate::rattle_std::test::Fail;

pub type Numbers = TenantCache<u64, u64, u64>;

/// Leaves one tenant, 1, with a budget of 3 and the entry (7, 2).
pub fn refill(cache: &mut Numbers) -> bool {
    let _ = (cache.close(&1), cache.close(&2), cache.set_total_limit(None));
    (cache.open(1, 3), cache.put(&1, 7, 2)) == (Ok(()), Ok(true))
}

pub type Counted = TenantCache<u64, u64, u64, Counting<ByCost>>;

/// Leaves one tenant, 1, with a budget of 3, the entry (7, 2) and the count of its insertion.
pub fn recount(counted: &mut Counted) -> bool {
    let _ = counted.close(&1);
    (counted.open(1, 3), counted.put_counted(&1, 7, 2)) == (Ok(()), Ok(true))
}

pub type Shared = TenantPool<u64, u64, u64>;

/// Leaves two tenants of a pool with a limit of 5: tenant 1 with a share of 3 and the entry (7, 2), and tenant 2 with a
/// share of 1.
pub fn restock(pool: &mut Shared) -> bool {
    let _ = (pool.close(&1), pool.close(&2), pool.close(&3));
    (pool.open(1, 3), pool.open(2, 1), pool.put(&1, 7, 2)) == (Ok(()), Ok(()), Ok(true))
}

pub type Bytes = ByteTenants<u64, u64, u64>;

/// Leaves one tenant, 1, with a limit of 500 bytes and the entry (7, 2).
pub fn reopen(bytes: &mut Bytes) -> bool {
    let _ = (bytes.close(&1), bytes.close(&2));
    (bytes.open(1, 500), bytes.put(&1, 7, 2)) == (Ok(()), Ok(true))
}

#[test]
fn of_the_law_on_totals() {
    let run = |rt: HostRuntime| -> () {
        let cache: Numbers = TenantCache::new(rt.alloc(), [1, 2, 3, 4]);
        costs_are_within_the_total_limit(&cache);
    };
    run(HostRuntime).passes();
}

#[test]
fn of_the_errors() {
    let run = |rt: HostRuntime| -> Result<(), Fail> {
        for (error, text, number) in [
            (TenantError::AlreadyOpen, "already open", 1),
            (TenantError::NotOpen, "not open", 2),
            (TenantError::Memory, "out of memory", 3),
            (TenantError::OverTotal, "over the total limit", 4),
        ] {
            check!(rt; format!(in rt.alloc(); "{error}")?.as_str() == text);
            check!(rt; error as u8 == number);
        }
        Ok(())
    };
    run(HostRuntime).passes();
}

#[test]
fn of_names_and_keys_that_are_texts() {
    let run = |rt: HostRuntime| -> Result<(), Fail> {
        let alloc = rt.alloc();
        let host = String::from_str(alloc, "host")?;
        let path = String::from_str(alloc, "/path")?;
        let page = String::from_str(alloc, "hello")?;
        let mut pages: TenantCache<String, String, String> = TenantCache::new(alloc, [1, 2, 3, 4]);
        check!(rt; (pages.open(host, 10), pages.put(&"host", path, page)) == (Ok(()), Ok(true)));
        let page = pages.get(&"host", &"/path")?.ok_or("no page")?;
        check!(rt; page.as_str() == "hello");
        Ok(())
    };
    run(HostRuntime).passes();
}
