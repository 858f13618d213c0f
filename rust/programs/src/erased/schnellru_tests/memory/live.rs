// Erased from crates/schnellru_tests/src/memory/live.rt: do not edit.
#[allow(unused_imports)]
use crate::rattle_std::prelude::*;

use crate::rattle_std::alloc::AllocError;
use crate::rattle_std::cell::Cell;

pub struct Lives {
    pub keys: Cell<u64>,
    pub values: Cell<u64>,
    pub clones: Cell<u64>,
}

impl Lives {
    pub fn new() -> Lives {
        Lives { keys: Cell::new(0), values: Cell::new(0), clones: Cell::new(0) }
    }

    pub fn are(&self, n: u64) -> bool {
        (self.keys.get() == n) & (self.values.get() == n)
    }

    pub fn key(&self, number: u64) -> Live<'_> {
        Live::new(number, &self.keys, &self.clones)
    }

    pub fn value(&self, number: u64) -> Live<'_> {
        Live::new(number, &self.values, &self.clones)
    }
}

/// A number. `lives` counts how many numbers are alive.
pub struct Live<'a> {
    pub number: u64,
    pub lives: &'a Cell<u64>,
    pub clones: &'a Cell<u64>,
}
impl PartialEq for Live<'_> {
    fn eq(&self, other: &Self) -> bool {
        self.number == other.number
    }
}
impl core::hash::Hash for Live<'_> {
    fn hash<H: core::hash::Hasher>(&self, hasher: &mut H) {
        self.number.hash(hasher);
    }
}

impl<'a> Live<'a> {
    fn new(number: u64, lives: &'a Cell<u64>, clones: &'a Cell<u64>) -> Live<'a> {
        lives.set(lives.get().wrapping_add(1));
        Live { number, lives, clones }
    }
}

impl Drop for Live<'_> {
    fn drop(&mut self) {
        // SAFETY: each field is a reference or a number, which has nothing to drop.
        unsafe { ::core::ptr::read(self) }.take_apart();
    }
}

impl Live<'_> {
    fn take_apart(self) {
        let whole = ::core::mem::ManuallyDrop::new(self);
        // SAFETY: each field is read once, and the whole is not dropped.
        let _number = unsafe { ::core::ptr::read(&whole.number) };
        // SAFETY: each field is read once, and the whole is not dropped.
        let lives = unsafe { ::core::ptr::read(&whole.lives) };
        // SAFETY: each field is read once, and the whole is not dropped.
        let _clones = unsafe { ::core::ptr::read(&whole.clones) };
        lives.set(lives.get().wrapping_sub(1));
    }
}

impl TryClone for Live<'_> {
    fn try_clone(&self) -> Result<Self, AllocError> {
        self.clones.set(self.clones.get().checked_sub(1).ok_or(AllocError)?);
        Ok(Live::new(self.number, self.lives, self.clones))
    }
}
