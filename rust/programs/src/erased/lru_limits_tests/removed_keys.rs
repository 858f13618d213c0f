// Erased from crates/lru_limits_tests/src/removed_keys.rt: do not edit.
//! A limiter that contains a vector, which clauses see as a list.

#[allow(unused_imports)]
use crate::rattle_std::prelude::*;

use crate::erased::lru_limits::Limiter;
use crate::rattle_std::alloc::{AllocError, Global};

const MOST: usize = 3;

struct RemovedKeys {
    keys: Vec<u64>,
}

impl RemovedKeys {
    fn new(alloc: Global) -> Result<RemovedKeys, AllocError> {
        Ok(RemovedKeys { keys: Vec::with_capacity(alloc, MOST)? })
    }
}

impl<V> Limiter<u64, V> for RemovedKeys {
    type LinkType = u32;

    fn is_over_the_limit(&self, _length: usize) -> bool {
        false
    }

    fn on_removed(&mut self, key: &mut u64, _value: &mut V) {
        if self.keys.len() < MOST {
            let has_room = self.keys.push(*key).is_ok();
            prove!(has_room);
        }
    }

    fn on_cleared(&mut self) {
        self.keys.clear();
    }

    fn on_grow(&mut self, _new_memory_usage: usize) -> bool {
        true
    }
}
