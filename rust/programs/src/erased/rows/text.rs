// Erased from crates/rows/src/text.rt: do not edit.
#[allow(unused_imports)]
use crate::rattle_std::prelude::*;

use crate::rattle_std::alloc::Global;
use crate::rattle_std::fmt::{Debug, Write};

/// A text. If memory runs out, a part of the text is missing, so its row fails.

pub struct Text(String);

impl Text {
    pub fn new(alloc: Global) -> Text {
        Text(String::new_in(alloc))
    }

    pub fn as_str(&self) -> &str {
        self.0.as_str()
    }

    pub fn into_vec(self) -> Vec<u8> {
        self.0.into_vec()
    }

    pub fn word(&mut self, word: &str) {
        let _ = self.0.push_str(word);
    }

    pub(crate) fn number(&mut self, number: u64) {
        let _ = write!(self.0, "{number}");
    }

    pub(crate) fn figure(&mut self, word: &str, number: u64) {
        self.word(word);
        self.number(number);
    }

    pub fn shown<L: Debug>(&mut self, limiter: &L) {
        let _ = write!(self.0, "{limiter:?}\n");
    }

    pub fn flag(&mut self, flag: bool) {
        self.word(if flag { "true" } else { "false" });
    }

    pub fn value(&mut self, value: Option<u64>) {
        match value {
            Some(value) => self.number(value),
            None => self.word("none"),
        }
    }

    pub(crate) fn pair(&mut self, (key, value): (u64, u64)) {
        self.number(key);
        self.word(":");
        self.number(value);
    }

    pub fn maybe_pair(&mut self, pair: Option<(u64, u64)>) {
        match pair {
            Some(pair) => self.pair(pair),
            None => self.word("none"),
        }
    }

    pub fn spaced(&mut self, pairs: &[(u64, u64)]) {
        for pair in pairs {
            self.word(" ");
            self.pair(*pair);
        }
    }

    pub fn pairs(&mut self, pairs: &[(u64, u64)]) {
        match pairs {
            [] => self.word("-"),
            [first, rest @ ..] => {
                self.pair(*first);
                self.spaced(rest);
            }
        }
    }
}
