// Erased from crates/lru_limits_tests/src/few.rt: do not edit.
//! A limiter that never changes, as `docs/LIMITERS.md` shows.

#[allow(unused_imports)]
use crate::rattle_std::prelude::*;

use crate::erased::lru_limits::Limiter;

/// Limits a map to `most` entries.
#[derive(Clone, Copy, Debug)]
pub struct Few {
    pub most: usize,
}

impl<K, V> Limiter<K, V> for Few {
    type LinkType = u32;

    fn is_over_the_limit(&self, length: usize) -> bool {
        length > self.most
    }

    fn on_removed(&mut self, _key: &mut K, _value: &mut V) {}

    fn on_cleared(&mut self) {}

    fn on_grow(&mut self, _new_memory_usage: usize) -> bool {
        true
    }
}
