// Erased from crates/rows/src/trials.rt: do not edit.
#[allow(unused_imports)]
use crate::rattle_std::prelude::*;

use crate::erased::lru_model::MoveReport;
use crate::programs::rows::plain::{Limit, Plain};
use crate::programs::rows::results::{write_figures, write_reserved, write_updated};
use crate::programs::rows::text::Text;
use crate::programs::test_helpers::Random;
use crate::rattle_std::alloc::Global;

const OTHER_TAG: u64 = 1 << 57;

#[derive(Clone, Copy)]
pub struct Bounds {
    pub limit: Limit,
    pub keys: u64,
    pub values: u64,
}

/// Random calls, and the answers that a plain list gives.

pub struct Trial {
    pub input: Text,
    pub text: Text,
    plain: Plain,
    random: Random,
}

fn sum_of_bytes(key: u64) -> u64 {
    let mut sum = 0u64;
    for byte in key.to_le_bytes() {
        sum = sum.wrapping_add(byte as u64);
    }
    sum
}

impl Trial {
    pub fn new(alloc: Global, first: &str, bounds: Bounds, calls: u64) -> Trial {
        let mut trial = Trial {
            input: Text::new(alloc),
            text: Text::new(alloc),
            plain: Plain::new(alloc, bounds.limit),
            random: Random::new(1),
        };
        trial.word(first);
        let is_map = first.starts_with("map ");
        for _ in 0..calls {
            trial.add(bounds, is_map);
            trial.text.word("\n");
        }
        trial
    }

    fn word(&mut self, word: &str) {
        self.input.word(word);
        self.input.word("\n");
    }

    fn one(&mut self, word: &str, number: u64) {
        self.input.figure(word, number);
        self.input.word("\n");
    }

    fn two(&mut self, word: &str, first: u64, second: u64) {
        self.input.figure(word, first);
        self.one(" ", second);
    }

    fn add(&mut self, bounds: Bounds, is_map: bool) {
        let (key, value) = (self.random.below(bounds.keys), self.random.below(bounds.values));
        match self.random.below(4096) {
            ..=3 => self.add_drain(key, value, is_map),
            ..=447 => self.add_of_list(value),
            ..=1279 => self.add_of_key(key, value),
            ..=1727 => {
                self.one("get ", key);
                self.text.value(self.plain.get(key));
            }
            ..=2047 if is_map => self.add_other(key, value),
            ..=3071 => {
                self.two("put ", key, value);
                self.plain.left.clear();
                self.text.flag(self.plain.insert(key, value));
                self.text.spaced(self.plain.left.as_slice());
            }
            _ => {
                self.two("insert ", key, value);
                self.text.flag(self.plain.insert(key, value));
            }
        }
    }

    fn add_drain(&mut self, front: u64, back: u64, is_map: bool) {
        if is_map {
            self.two("drain ", front, back);
        } else {
            self.one("drain ", front);
        }
        self.plain.drain(front, if is_map { back } else { 0 });
        self.text.pairs(self.plain.left.as_slice());
    }

    fn add_of_list(&mut self, number: u64) {
        match self.random.below(444) {
            ..=1 => {
                self.word("clear");
                self.plain.clear();
                self.text.word("ok");
            }
            ..=27 => self.add_list_or_stats(),
            ..=59 => {
                // The plain list does not know whether a large table gets smaller, so both answers are read as "ok".
                self.word("shrink");
                self.plain.shrink();
                self.text.word("ok");
            }
            ..=187 => {
                self.one("reserve ", number % 100);
                write_reserved(&mut self.text, self.plain.reserve(number % 100));
            }
            ..=315 => {
                self.word("pop-oldest");
                self.text.maybe_pair(self.plain.take(0));
            }
            _ => {
                self.word("pop-newest");
                self.text.maybe_pair(self.plain.pop_newest());
            }
        }
    }

    fn add_list_or_stats(&mut self) {
        let Limit::Memory(_, entry_bytes) = self.plain.limit else {
            self.word("list");
            self.plain.pairs.reverse();
            self.text.pairs(self.plain.pairs.as_slice());
            self.plain.pairs.reverse();
            return;
        };
        self.word("stats");
        let table = self.plain.table;
        let report = MoveReport { moved: table.moved, placed: table.placed, shrunk: table.shrunk };
        let figures = [self.plain.len(), table.capacity(), table.bytes(entry_bytes)];
        write_figures(&mut self.text, figures, report);
    }

    fn add_of_key(&mut self, key: u64, value: u64) {
        match self.random.below(26) {
            ..=12 => {
                self.one("peek ", key);
                self.text.value(self.plain.value(key));
            }
            13 => {
                self.one("contains ", key);
                self.text.flag(self.plain.value(key).is_some());
            }
            14 => {
                self.one("promote ", key);
                self.text.flag(self.plain.get(key).is_some());
            }
            15 => {
                self.one("demote ", key);
                self.text.flag(self.plain.demote(key));
            }
            16 => {
                self.two("update ", key, value);
                write_updated(&mut self.text, self.plain.update(key, value));
            }
            kind => self.add_removal(kind == 17, key),
        }
    }

    fn add_removal(&mut self, of_pair: bool, key: u64) {
        self.one(if of_pair { "remove-entry " } else { "remove " }, key);
        let value = self.plain.value(key);
        let pair = self.plain.remove(key);
        if of_pair {
            self.text.maybe_pair(pair);
        } else {
            self.text.value(value);
        }
    }

    fn add_other(&mut self, key: u64, value: u64) {
        match self.random.below(9) {
            0 => {
                self.word("peek-oldest");
                self.text.maybe_pair(self.plain.pairs.first().copied());
            }
            1 => {
                self.word("peek-newest");
                self.text.maybe_pair(self.plain.pairs.last().copied());
            }
            2 => self.add_write(key, value),
            3 => {
                self.word("trim");
                self.text.word("ok");
            }
            4 => {
                self.two("get-or-insert ", key, value);
                if self.plain.value(key).is_none() {
                    self.plain.insert(key, value);
                }
                self.text.value(self.plain.get(key));
            }
            kind => self.add_by_hash(kind, key),
        }
    }

    fn add_by_hash(&mut self, kind: u64, key: u64) {
        let hash = sum_of_bytes(key);
        match kind {
            5 => {
                self.two("get-by-hash ", hash.wrapping_add(OTHER_TAG), key);
                self.text.word("none");
            }
            6 => {
                self.two("peek-by-hash ", hash.wrapping_add(OTHER_TAG), key);
                self.text.word("none");
            }
            7 => {
                self.two("get-by-hash ", hash, key);
                self.text.value(self.plain.get(key));
            }
            _ => {
                self.two("peek-by-hash ", hash, key);
                self.text.value(self.plain.value(key));
            }
        }
    }

    fn add_write(&mut self, key: u64, value: u64) {
        self.two("write ", key, value);
        match (self.plain.limit, self.plain.value(key)) {
            (Limit::Cost(_), Some(old)) if old != value => self.text.word("cost differs"),
            _ => self.text.flag(self.plain.write(key, value)),
        }
    }
}
