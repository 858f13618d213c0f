// Erased from crates/lru_caches_tests/src/trials/recursion.rt: do not edit.
#[allow(unused_imports)]
use crate::rattle_std::prelude::*;

use crate::erased::lru_caches::{MemoTable, Question};
use crate::erased::schnellru::ByLength;
use crate::rattle_std::alloc::Global;

struct FibonacciNumbers;

impl Question<u64, u64> for FibonacciNumbers {}

fn fibonacci(table: &mut MemoTable<u64, u64, FibonacciNumbers, ByLength>, n: u64) -> u64 {
    if n < 2 {
        return n;
    }
    if let Some(value) = table.get(&n) {
        return value;
    }
    let newer = fibonacci(table, n - 1);
    let value = newer.wrapping_add(fibonacci(table, n - 2));
    table.store(n, value);
    value
}

/// Returns 1 if a recursion with a table of three answers gives the Fibonacci number of 90. A table of two answers
/// would evict the answer that the recursion needs next.
pub fn answers(alloc: Global) -> u64 {
    let mut table = MemoTable::new(alloc, ByLength::new(3), FibonacciNumbers);
    (fibonacci(&mut table, 90) == 2_880_067_194_370_816_120) as u64
}
