// Erased from crates/group_table_tests/src/examples.rt: do not edit.
//! Written by `docs/examples.py` from the examples in the doc comments. Do not change it by hand.
#[allow(unused_imports)]
use crate::rattle_std::prelude::*;

use crate::erased::group_table::Table;
use crate::erased::group_table::group::{match_empty, match_free, match_tag};
use crate::programs::test_helpers::{all, check};
use crate::rattle_std::test::Fail;

#[test]
fn of_group() {
    let run = |rt: HostRuntime| -> () {
        let bytes: [u8; 16] = [0, 255, 128, 5, 255, 255, 255, 255, 255, 255, 255, 255, 255, 255, 255, 255];
        check!(rt; match_tag(&bytes, 0) == 0x0001);
    };
    run(HostRuntime).passes();
}

#[test]
fn of_group_2() {
    let run = |rt: HostRuntime| -> () {
        let bytes: [u8; 16] = [0, 255, 128, 5, 255, 255, 255, 255, 255, 255, 255, 255, 255, 255, 255, 255];
        check!(rt; match_empty(&bytes) == 0xfff2);
    };
    run(HostRuntime).passes();
}

#[test]
fn of_group_3() {
    let run = |rt: HostRuntime| -> () {
        let bytes: [u8; 16] = [0, 255, 128, 5, 255, 255, 255, 255, 255, 255, 255, 255, 255, 255, 255, 255];
        check!(rt; match_free(&bytes) == 0xfff6);
    };
    run(HostRuntime).passes();
}

#[test]
fn of_table_figures() {
    let run = |rt: HostRuntime| -> Result<(), Fail> {
        let alloc = rt.alloc();
        let table: Table<u64> = Table::with_buckets(alloc, 8)?;
        check!(rt; table.has_bucket(7) && !table.has_bucket(8));
        Ok(())
    };
    run(HostRuntime).passes();
}

#[test]
fn of_table_figures_2() {
    let run = |rt: HostRuntime| -> Result<(), Fail> {
        let alloc = rt.alloc();
        let mut table = Table::with_buckets(alloc, 8)?;
        let _ = table.try_place(7, "a");
        check!(rt; (table.placed(), table.insertion_count()) == (1, 1));
        Ok(())
    };
    run(HostRuntime).passes();
}

#[test]
fn of_table() {
    let run = |rt: HostRuntime| -> Result<(), Fail> {
        let alloc = rt.alloc();
        let mut table = Table::with_buckets(alloc, 8)?;
        let b = table.try_place(7, "a").ok().ok_or("no room")?;
        let held = table.find(7, |entry| *entry == "a") == Some(b);
        if table.growth_left() > 0 {
            let b = table.place(9, "b");
            assert_eq!(rt; table.find(9, |entry| *entry == "b"), Some(b));
        }
        check!(rt; held);
        Ok(())
    };
    run(HostRuntime).passes();
}
