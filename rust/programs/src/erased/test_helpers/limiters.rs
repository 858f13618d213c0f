// Erased from crates/test_helpers/src/limiters.rt: do not edit.
//! Limiters of maps from numbers to numbers. Put such a limiter into a map as `Storing(..)`.

#[allow(unused_imports)]
use crate::rattle_std::prelude::*;

use crate::erased::lru_limits::{Limiter, LinkType};
use crate::rattle_std::marker::PhantomData;

/// Limits nothing. The map has links of this type.
#[derive(Clone, Copy, Debug)]
pub struct LinkedBy<N>(pub PhantomData<N>);

impl<N: LinkType> Limiter<u64, u64> for LinkedBy<N> {
    type LinkType = N;

    fn is_over_the_limit(&self, _length: usize) -> bool {
        false
    }

    fn on_removed(&mut self, _key: &mut u64, _value: &mut u64) {}

    fn on_cleared(&mut self) {}

    fn on_grow(&mut self, _new_memory_usage: usize) -> bool {
        true
    }
}

/// Is either always or never over its limit, and permits every second growth. Counts removals and requested growths,
/// and keeps the last removed key and the last requested number of bytes.
#[derive(Clone, Copy, Debug)]
pub struct Alternating {
    pub over: bool,
    pub permits: bool,
    pub removed: u32,
    pub last: u64,
    pub asked: u32,
    pub bytes: usize,
}

impl Alternating {
    pub fn new(over: bool, permits: bool) -> Alternating {
        Alternating { over, permits, removed: 0, last: 0, asked: 0, bytes: 0 }
    }
}

impl Limiter<u64, u64> for Alternating {
    type LinkType = u32;

    fn is_over_the_limit(&self, _length: usize) -> bool {
        self.over
    }

    fn on_removed(&mut self, key: &mut u64, _value: &mut u64) {
        self.removed = self.removed.saturating_add(1);
        self.last = *key;
    }

    fn on_cleared(&mut self) {}

    fn on_grow(&mut self, new_memory_usage: usize) -> bool {
        let permits = self.permits;
        self.permits = !permits;
        self.asked = self.asked.saturating_add(1);
        self.bytes = new_memory_usage;
        permits
    }
}

/// Limits nothing. Writes 0 into the value of each removed entry. If `keys` is set, also writes 0 into the key. Keeps
/// the last removed entry as it was before.
#[derive(Clone, Copy, Debug, Default)]
pub struct Blanking {
    pub keys: bool,
    pub last: (u64, u64),
}

impl Limiter<u64, u64> for Blanking {
    type LinkType = u32;

    fn is_over_the_limit(&self, _length: usize) -> bool {
        false
    }

    fn on_removed(&mut self, key: &mut u64, value: &mut u64) {
        self.last = (*key, *value);
        if self.keys {
            *key = 0;
        }
        *value = 0;
    }

    fn on_cleared(&mut self) {}

    fn on_grow(&mut self, _new_memory_usage: usize) -> bool {
        true
    }
}
