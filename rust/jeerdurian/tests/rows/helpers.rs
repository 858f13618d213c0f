//! Hashers, limiters and maps of the worked examples.

use jeerdurian::{ByCost, Limiter, LruMap, MoveReport};
use std::hash::{BuildHasher, Hash, Hasher};

/// Hashes a number to its quotient by `BY`.
#[derive(Clone, Copy, Default)]
pub struct Quotient<const BY: u64>(u64);

impl<const BY: u64> Hasher for Quotient<BY> {
    fn write(&mut self, bytes: &[u8]) {
        let mut number = [0; 8];
        number[..bytes.len()].copy_from_slice(bytes);
        self.0 = u64::from_le_bytes(number) / BY;
    }

    fn finish(&self) -> u64 {
        self.0
    }
}

impl<const BY: u64> BuildHasher for Quotient<BY> {
    type Hasher = Self;

    fn build_hasher(&self) -> Self {
        *self
    }
}

/// Hashes a number to itself.
pub type Itself = Quotient<1>;

/// Hashes a number to its quotient by 1,000.
pub type Thousands = Quotient<1000>;

/// A key whose hash is 28 by `Thousands`.
pub const OF_HASH_28: u32 = 28_000;

pub const SEED: [u64; 4] = [1, 2, 3, 4];

/// Inserts each key, with ten times the key as its value. With links of 32 bits an entry has 16 bytes.
pub fn fill<L, S>(mut map: LruMap<u32, u32, L, S>, keys: impl IntoIterator<Item = u32>) -> LruMap<u32, u32, L, S>
where
    L: for<'a> Limiter<u32, u32, KeyToInsert<'a> = u32>,
    S: BuildHasher,
{
    for key in keys {
        assert!(map.insert(key, 10 * key));
    }
    map
}

/// Returns the entries, the newest first.
pub fn entries<K: Copy + Hash + Eq, V: Copy, L: Limiter<K, V>, S: BuildHasher>(
    map: &LruMap<K, V, L, S>,
) -> Vec<(K, V)> {
    map.iter().map(|(key, value)| (*key, *value)).collect()
}

/// Returns the entries of these keys.
pub fn tens(keys: impl IntoIterator<Item = u32>) -> Vec<(u32, u32)> {
    keys.into_iter().map(|key| (key, 10 * key)).collect()
}

pub fn report(moved: u64, placed: u64) -> MoveReport {
    MoveReport { moved, placed, shrunk: 0 }
}

/// A map under a limit of 10 by cost, with the entries (3, 3), (2, 2), (1, 1).
pub fn costs() -> LruMap<u32, u32, Logging<ByCost>> {
    let mut map = LruMap::with_seed(Logging::new(ByCost::new(10)), SEED);
    (1..=3).for_each(|n| assert!(map.insert(n, n)));
    map
}

/// A callback with its arguments.
#[derive(Clone, Copy, Debug, PartialEq)]
pub enum Event {
    Removed(u32, u32),
    Cleared,
    Grow(usize),
}

pub use Event::{Cleared, Grow, Removed};

/// Limits as `L` does, and logs some callbacks, in memory that it allocates when it is made.
pub struct Logging<L> {
    pub limiter: L,
    pub log: Vec<Event>,
}

impl<L> Logging<L> {
    pub fn new(limiter: L) -> Self {
        Logging { limiter, log: Vec::with_capacity(100) }
    }
}

impl<L: for<'a> Limiter<u32, u32, KeyToInsert<'a> = u32>> Limiter<u32, u32> for Logging<L> {
    type KeyToInsert<'a> = u32;
    type LinkType = L::LinkType;

    fn is_over_the_limit(&self, length: usize) -> bool {
        self.limiter.is_over_the_limit(length)
    }

    fn on_insert(&mut self, length: usize, key: u32, value: u32) -> Option<(u32, u32)> {
        self.limiter.on_insert(length, key, value)
    }

    fn on_replace(&mut self, length: usize, old_key: &mut u32, key: u32, old: &mut u32, new: &mut u32) -> bool {
        self.limiter.on_replace(length, old_key, key, old, new)
    }

    fn on_removed(&mut self, key: &mut u32, value: &mut u32) {
        self.log.push(Removed(*key, *value));
        self.limiter.on_removed(key, value);
    }

    fn on_cleared(&mut self) {
        self.log.push(Cleared);
        self.limiter.on_cleared();
    }

    fn on_grow(&mut self, bytes: usize) -> bool {
        self.log.push(Grow(bytes));
        self.limiter.on_grow(bytes)
    }
}
