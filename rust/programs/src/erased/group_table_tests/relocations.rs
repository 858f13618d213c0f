// Erased from crates/group_table_tests/src/relocations.rt: do not edit.
//! Relocations and rehashes, compared with the rules of docs/TABLE.md.
#[allow(unused_imports)]
use crate::rattle_std::prelude::*;

use super::tables::{SCATTERED, fill, is_copied, keys_after, keys_of, moved, table_of, thin};
use crate::erased::group_table::{Table, full_capacity};
use crate::programs::test_helpers::check;
use crate::rattle_std::alloc::{AllocError, Global};
use crate::rattle_std::cell::Cell;
use crate::rattle_std::test::Fail;

// Returns whether the keys are where the rules put them, and whether the hash of each entry was computed once.
fn moves(alloc: Global, table: &mut Table<u64>, buckets: usize, factor: u64) -> Result<bool, AllocError> {
    let expected = keys_after(alloc, &keys_of(alloc, table)?, buckets, factor)?;
    let asked = Cell::new(0usize);
    moved(table, buckets, factor, &asked)?;
    Ok(asked.get() == table.len() && keys_of(alloc, table)? == expected)
}

const SIZES: [usize; 11] = [4, 8, 16, 32, 64, 128, 256, 512, 1024, 2048, 4096];

fn moves_up_and_down(alloc: Global, table: &mut Table<u64>, factor: u64) -> Result<bool, AllocError> {
    let mut next = 0;
    for buckets in SIZES.iter().chain(SIZES.iter().rev()) {
        for _ in 0..2u32 {
            next = fill(table, factor, next);
            thin(table, 3, 0);
            thin(table, 1, full_capacity(*buckets));
            if !moves(alloc, table, *buckets, factor)? {
                return Ok(false);
            }
        }
    }
    Ok(true)
}

#[test]
fn up_and_down() {
    let run = |rt: HostRuntime| -> Result<(), Fail> {
        for factor in [0, 1, SCATTERED] {
            let mut table = table_of(rt.alloc(), 4)?;
            check!(rt; moves_up_and_down(rt.alloc(), &mut table, factor) == Ok(true));
        }
        Ok(())
    };
    run(HostRuntime).passes();
}

fn moves_many(alloc: Global, table: &mut Table<u64>) -> Result<bool, AllocError> {
    let next = fill(table, SCATTERED, 0);
    thin(table, 3, 0);
    fill(table, SCATTERED, next);
    let is_rehashed = moves(alloc, table, 1 << 20, SCATTERED)? && table.len() == 917_504;
    let is_copied = is_copied(table, u64::MAX);
    thin(table, 2, 458_752);
    let is_relocated = moves(alloc, table, 1 << 19, SCATTERED)? && table.len() == 458_752;
    Ok(is_rehashed && is_copied && is_relocated)
}

// A call may run out of memory, so the prover accepts an implementation that fails above some size. This test rejects
// such an implementation.
#[test]
fn many_buckets() {
    let run = |rt: HostRuntime| -> Result<(), Fail> {
        let mut table = table_of(rt.alloc(), 1 << 20)?;
        check!(rt; moves_many(rt.alloc(), &mut table) == Ok(true));
        Ok(())
    };
    run(HostRuntime).passes();
}
