// Erased from crates/lru_trace/src/places.rt: do not edit.
#[allow(unused_imports)]
use crate::rattle_std::prelude::*;

use crate::erased::lru_trace::distances::Distances;
use crate::rattle_std::alloc::{AllocError, Global};
use crate::rattle_std::collections::BTreeMap;

/// The places of `deletes_leave_places`, newest first. A place is free, or contains a key. A key is a number.
///
/// Each place has a number, and the time of the reference that moved it to the front. A key has the number of its
/// place.

pub struct Places {
    distances: Distances,
    times: Vec<u64>,
    free: BTreeMap<u64, usize>,
    clock: u64,
}

fn newest(free: &BTreeMap<u64, usize>) -> Option<(u64, usize)> {
    match free.last_key_value() {
        Some((time, id)) => Some((*time, *id)),
        None => None,
    }
}

fn choose(free: &mut BTreeMap<u64, usize>, times: &[u64], own: Option<usize>) -> Result<Option<usize>, AllocError> {
    let Some((time, id)) = newest(free) else {
        return Ok(own);
    };
    match own {
        Some(own) if time <= (*at!(times, own)) => Ok(Some(own)),
        Some(own) => {
            let Ok(_) = free.insert((*at!(times, own)), own) else {
                return Err(AllocError);
            };
            free.remove(&time);
            Ok(Some(id))
        }
        None => {
            free.remove(&time);
            Ok(Some(id))
        }
    }
}

impl Places {
    pub fn new(alloc: Global) -> Result<Self, AllocError> {
        Ok(Places { distances: Distances::new(alloc)?, times: Vec::new(alloc), free: BTreeMap::new(alloc), clock: 0 })
    }

    pub fn len(&self) -> usize {
        self.distances.referenced()
    }

    /// Returns how many places are newer than the place of the key.
    pub fn place_of(&self, key: usize) -> u64 {
        self.distances.position(key).unwrap_or(0)
    }

    /// Deletes a key: its place becomes free.
    pub fn free(&mut self, key: usize) -> Result<(), AllocError> {
        let time = (*at!(self.times, key));
        let Ok(_) = self.free.insert(time, key) else {
            return Err(AllocError);
        };
        Ok(())
    }

    fn add(&mut self) -> Result<usize, AllocError> {
        let Some(later) = self.clock.checked_add(1) else {
            return Err(AllocError);
        };
        self.times.reserve(1)?;
        let id = self.distances.add_key()?;
        self.times.push_reserved(self.clock);
        self.distances.refer(id)?;
        self.clock = later;
        Ok(id)
    }

    /// References a key, or a new key (`None`). Returns the new number of the key.
    pub fn refer(&mut self, key: Option<usize>) -> Result<usize, AllocError> {
        let Some(later) = self.clock.checked_add(1) else {
            return Err(AllocError);
        };
        self.distances.reserve()?;
        let Some(id) = choose(&mut self.free, &self.times, key)? else {
            return self.add();
        };
        self.distances.refer(id)?;
        (*at_mut!(self.times, id)) = self.clock;
        self.clock = later;
        Ok(id)
    }
}
