// Erased from crates/lru_caches_tests/src/trials.rt: do not edit.
//! Tests what no contract says: how often functions and devices are called, and that inserts find memory.
#[allow(unused_imports)]
use crate::rattle_std::prelude::*;

mod memos;
mod pages;
mod recursion;

use crate::erased::lru_caches::OrderedMap;
use crate::programs::test_helpers::check;

#[test]
fn functions_are_called_if_a_result_is_not_stored() {
    let run = |rt: HostRuntime| -> () {
        check!(rt; memos::calls_that_agree(rt.alloc()) == memos::CALLS);
        check!(rt; recursion::answers(rt.alloc()) == 1);
    };
    run(HostRuntime).passes();
}

#[test]
fn an_ordered_map_of_many_keys() {
    let run = |rt: HostRuntime| -> () {
        let mut map = OrderedMap::new(rt.alloc());
        for key in 0..100_000u64 {
            check!(rt; map.insert(key, key) == Ok(None));
        }
    };
    run(HostRuntime).passes();
}

/// In run k, the disk fails after k calls. Then the disk fails again after k more calls, or stays broken.
#[test]
fn a_disk_that_fails() {
    let run = |rt: HostRuntime| -> () {
        for stays_broken in [false, true] {
            let (tried, kept) = pages::runs_that_end_well(rt.alloc(), stays_broken);
            check!(rt; (tried, kept) == (pages::NEEDED, pages::NEEDED));
        }
    };
    run(HostRuntime).passes();
}
