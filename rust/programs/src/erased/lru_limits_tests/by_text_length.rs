// Erased from crates/lru_limits_tests/src/by_text_length.rt: do not edit.
//! A limiter of your own. Its running total is the sum of the lengths of the values, which are texts.
//! `docs/LIMITERS.md` explains it.

#[allow(unused_imports)]
use crate::rattle_std::prelude::*;

use crate::erased::lru_limits::{Admission, Limiter, Summing};

/// Limits the bytes of all texts together. Rejects a text that is longer than the limit.
#[derive(Clone, Copy, Debug)]
pub struct ByTextLength {
    pub limit: u64,
    pub total: u64,
}

impl ByTextLength {
    /// Returns `total` plus `bytes`. If `bytes` is above the limit, or the sum has more than 64 bits, returns `None`.
    fn total_with(&self, total: u64, bytes: u64) -> Option<u64> {
        if bytes <= self.limit { total.checked_add(bytes) } else { None }
    }
}

impl<K> Limiter<K, String> for ByTextLength {
    type LinkType = u32;

    fn is_over_the_limit(&self, _length: usize) -> bool {
        self.total > self.limit
    }

    fn on_removed(&mut self, _key: &mut K, value: &mut String) {
        self.total = self.total.saturating_sub(value.len() as u64);
    }

    fn on_cleared(&mut self) {
        self.total = 0;
    }

    fn on_grow(&mut self, _new_memory_usage: usize) -> bool {
        true
    }
}

impl<K> Admission<K, String> for ByTextLength {
    fn accepts(&self, _length: usize, _key: &K, value: &String) -> bool {
        self.total_with(self.total, value.len() as u64).is_some()
    }

    fn admit(&mut self, _length: usize, _key: &K, value: &String) -> bool {
        match self.total_with(self.total, value.len() as u64) {
            Some(total) => {
                self.total = total;
                true
            }
            None => false,
        }
    }

    fn accepts_in_place(&self, _length: usize, _key: &K, old: &String, new: &String) -> bool {
        let without_old = self.total.saturating_sub(old.len() as u64);
        self.total_with(without_old, new.len() as u64).is_some()
    }

    fn admit_in_place(&mut self, _length: usize, _key: &K, old: &String, new: &String) -> bool {
        let without_old = self.total.saturating_sub(old.len() as u64);
        match self.total_with(without_old, new.len() as u64) {
            Some(total) => {
                self.total = total;
                true
            }
            None => false,
        }
    }
}

impl<K> Summing<K, String> for ByTextLength {
    fn cost_of(_key: &K, value: &String) -> u64 {
        value.len() as u64
    }

    fn account(&self) -> u64 {
        self.total
    }
}
