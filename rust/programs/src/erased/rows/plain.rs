// Erased from crates/rows/src/plain.rt: do not edit.
//! A plain list of entries under a limit. The list carries out calls as the documentation of the map describes them.
#[allow(unused_imports)]
use crate::rattle_std::prelude::*;

use crate::erased::lru_model::{ReserveError, Updated};
use crate::programs::rows::table::Table;
use crate::rattle_std::alloc::Global;

#[derive(Clone, Copy)]
pub enum Limit {
    Length(u64),
    Memory(u64, u64),
    Cost(u64),
    Unlimited,
}

/// If memory runs out, the entries are wrong, and the trial fails.

pub(crate) struct Plain {
    pub(crate) limit: Limit,
    pub(crate) pairs: Vec<(u64, u64)>,
    pub(crate) left: Vec<(u64, u64)>,
    pub(crate) cost: u64,
    pub(crate) table: Table,
}

impl Plain {
    pub(crate) fn new(alloc: Global, limit: Limit) -> Plain {
        Plain { limit, pairs: Vec::new(alloc), left: Vec::new(alloc), cost: 0, table: Table::default() }
    }

    pub(crate) fn len(&self) -> u64 {
        self.pairs.len() as u64
    }

    fn place_of(&self, key: u64) -> usize {
        for (place, pair) in self.pairs.iter().enumerate() {
            if pair.0 == key {
                return place;
            }
        }
        self.pairs.len()
    }

    pub(crate) fn value(&self, key: u64) -> Option<u64> {
        for pair in &self.pairs {
            if pair.0 == key {
                return Some(pair.1);
            }
        }
        None
    }

    pub(crate) fn take(&mut self, place: usize) -> Option<(u64, u64)> {
        if place >= self.pairs.len() {
            return None;
        }
        let pair = self.pairs.remove(place);
        self.cost = self.cost.saturating_sub(pair.1);
        Some(pair)
    }

    pub(crate) fn remove(&mut self, key: u64) -> Option<(u64, u64)> {
        self.take(self.place_of(key))
    }

    pub(crate) fn pop_newest(&mut self) -> Option<(u64, u64)> {
        let len = self.pairs.len();
        self.take(len.wrapping_sub(1))
    }

    pub(crate) fn clear(&mut self) {
        self.pairs.clear();
        self.cost = 0;
    }

    pub(crate) fn get(&mut self, key: u64) -> Option<u64> {
        let pair = self.remove(key)?;
        self.push(pair);
        Some(pair.1)
    }

    pub(crate) fn demote(&mut self, key: u64) -> bool {
        match self.remove(key) {
            Some(pair) => {
                self.put(0, pair);
                true
            }
            None => false,
        }
    }

    pub(crate) fn update(&mut self, key: u64, value: u64) -> Updated<u64> {
        let place = self.place_of(key);
        let Some(old) = self.take(place) else {
            return Updated::Absent(value);
        };
        if !self.is_replaced(old, value) {
            return Updated::Rejected(value);
        }
        self.put(place, (key, value));
        self.trim();
        Updated::Replaced(old.1)
    }

    pub(crate) fn write(&mut self, key: u64, value: u64) -> bool {
        let place = self.place_of(key);
        match self.take(place) {
            Some(_) => {
                self.put(place, (key, value));
                true
            }
            None => false,
        }
    }

    fn put(&mut self, place: usize, pair: (u64, u64)) {
        self.cost = self.cost.saturating_add(pair.1);
        let _ = self.pairs.insert(place.min(self.pairs.len()), pair);
    }

    fn push(&mut self, pair: (u64, u64)) {
        let len = self.pairs.len();
        self.put(len, pair);
    }

    fn leave(&mut self, pair: (u64, u64)) {
        let _ = self.left.push(pair);
    }

    fn is_over(&self, len: u64, cost: u64) -> bool {
        match self.limit {
            Limit::Length(most) => len > most,
            Limit::Cost(most) => cost > most,
            Limit::Memory(_, _) | Limit::Unlimited => false,
        }
    }

    fn accepts(&self, value: u64) -> bool {
        match self.limit {
            Limit::Length(most) => most > 0,
            Limit::Cost(most) => value <= most && self.cost.checked_add(value).is_some(),
            Limit::Memory(_, _) | Limit::Unlimited => true,
        }
    }

    pub(crate) fn evict(&mut self) {
        if let Some(pair) = self.take(0) {
            self.leave(pair);
        }
    }

    pub(crate) fn insert(&mut self, key: u64, value: u64) -> bool {
        let is_stored = match self.remove(key) {
            Some(old) => self.is_replaced(old, value),
            None => self.is_placed((key, value)),
        };
        if is_stored {
            self.push((key, value));
            self.trim();
        }
        is_stored && !self.pairs.is_empty()
    }

    fn trim(&mut self) {
        for _ in 0..self.pairs.len() {
            if self.is_over(self.len(), self.cost) {
                self.evict();
            }
        }
    }

    fn is_replaced(&mut self, old: (u64, u64), value: u64) -> bool {
        if matches!(self.limit, Limit::Length(_)) || self.accepts(value) {
            return true;
        }
        self.leave(old);
        false
    }

    fn is_placed(&mut self, new: (u64, u64)) -> bool {
        if !self.accepts(new.1) {
            return false;
        }
        let (len, cost) = (self.len(), self.cost);
        if self.is_over(len.saturating_add(1), cost.saturating_add(new.1)) {
            self.evict();
        }
        let Limit::Memory(most, entry_bytes) = self.limit else {
            return true;
        };
        if len >= self.table.capacity() && !self.table.grow(len, most, entry_bytes) {
            self.evict();
        }
        if self.len() >= self.table.capacity() {
            self.leave(new);
            return false;
        }
        self.table.placed = self.table.placed.saturating_add(1);
        true
    }

    pub(crate) fn reserve(&mut self, n: u64) -> Result<(), ReserveError> {
        let pairs = self.len().saturating_add(n);
        match self.limit {
            Limit::Memory(most, entry_bytes) => self.table.reserve(pairs, most, entry_bytes),
            _ => Ok(()),
        }
    }

    pub(crate) fn shrink(&mut self) {
        let len = self.len();
        self.table.shrink(len);
    }

    pub(crate) fn drain(&mut self, front: u64, back: u64) {
        self.left.clear();
        self.pairs.reverse();
        for _ in 0..front {
            self.evict();
        }
        self.pairs.reverse();
        for _ in 0..back {
            self.evict();
        }
        self.clear();
    }
}
