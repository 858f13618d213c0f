// Erased from crates/lru_trace/src/names.rt: do not edit.
//! The texts of keys.

#[allow(unused_imports)]
use crate::rattle_std::prelude::*;

use crate::erased::lru_trace::samples::hash;
use crate::rattle_std::alloc::{AllocError, Global};

/// The number of chains of new `Names`.
const FEWEST: usize = 16;

/// Texts that stand one after another in one block. `ends` says where each text ends.

struct Texts {
    bytes: Vec<u8>,
    ends: Vec<usize>,
}

/// Returns where a text starts. It starts where the text before it ends.
fn start_of(ends: &[usize], number: usize) -> usize {
    if number == 0 { 0 } else { (*at!(ends, number - 1)) }
}

fn text_of<'a>(bytes: &'a [u8], ends: &[usize], number: usize) -> &'a [u8] {
    &(*at!(bytes, start_of(ends, number)..(*at!(ends, number))))
}

impl Texts {
    const fn new(alloc: Global) -> Self {
        Texts { bytes: Vec::new(alloc), ends: Vec::new(alloc) }
    }

    fn len(&self) -> usize {
        self.ends.len()
    }

    fn get(&self, number: usize) -> &[u8] {
        text_of(&self.bytes, &self.ends, number)
    }

    fn push(&mut self, text: &[u8]) -> Result<(), AllocError> {
        self.ends.reserve(1)?;
        self.bytes.extend_from_slice(text)?;
        self.ends.push_reserved(self.bytes.len());
        Ok(())
    }
}

/// The texts of keys. The first text that was added has the number 0, the next text 1, and so on.
///
/// The texts whose hashes leave the same remainder form a chain. `newest` contains a link to the newest text of each
/// chain, and `older` contains, for each text, a link to the next older text of its chain. A link is one more than the
/// number of a text, and 0 if there is no text. At most 2 ^ 32 - 1 texts can be added.
///
/// A text takes its bytes and between 16 and 20 bytes more. The hashes have no seeds, so an attacker can choose texts
/// that all stand in one chain.

pub struct Names {
    texts: Texts,
    newest: Vec<u32>,
    older: Vec<u32>,
    alloc: Global,
}

/// Returns the chain of a text if there are this many chains.

fn chain_of(text: &[u8], chains: usize) -> usize {
    let hash = hash(text);
    (hash ^ (hash >> 32)) as usize % chains
}

/// Adds a text to its chain. The texts with smaller numbers stand in their chains already.
fn add_to_chain(texts: &Texts, number: usize, newest: &mut [u32], older: &mut [u32]) {
    let chain = chain_of(texts.get(number), newest.len());
    (*at_mut!(older, number)) = (*at!(newest, chain));
    (*at_mut!(newest, chain)) = (number + 1) as u32;
}

impl Names {
    pub fn new(alloc: Global) -> Result<Self, AllocError> {
        Ok(Names { texts: Texts::new(alloc), newest: vec![in alloc; 0; FEWEST]?, older: Vec::new(alloc), alloc })
    }

    /// Returns the number of a text.
    ///
    /// Cost: `O(1)` expected.
    pub fn find(&self, text: &str) -> Option<usize> {
        let text = text.as_bytes();
        let mut link = (*at!(self.newest, chain_of(text, self.newest.len()))) as usize;
        while link > 0 {
            let number = link - 1;
            if self.texts.get(number) == text {
                return Some(number);
            }
            link = (*at!(self.older, number)) as usize;
        }
        None
    }

    /// Doubles the number of chains if there are as many texts as chains.
    fn grow_if_full(&mut self) -> Result<(), AllocError> {
        let chains = self.newest.len();
        if self.texts.len() < chains {
            return Ok(());
        }
        let mut newest = vec![in self.alloc; 0; 2 * chains]?;
        for number in 0..self.texts.len() {
            add_to_chain(&self.texts, number, &mut newest, &mut self.older);
        }
        self.newest = newest;
        Ok(())
    }

    /// Adds a text.
    ///
    /// Cost: `O(1)` expected, amortised over the texts.
    ///
    /// # Errors
    ///
    /// Out of memory, or there are 2 ^ 32 - 1 texts. The text was not added.
    pub fn add(&mut self, text: &str) -> Result<(), AllocError> {
        let number = self.texts.len();
        if number >= u32::MAX as usize {
            return Err(AllocError);
        }
        self.grow_if_full()?;
        self.older.reserve(1)?;
        self.texts.push(text.as_bytes())?;
        self.older.push_reserved(0);
        add_to_chain(&self.texts, number, &mut self.newest, &mut self.older);
        Ok(())
    }
}
