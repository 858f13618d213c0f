//! The seeds of the default hasher.

use crate::erased::lru_limits;
use crate::erased::lru_limits::DefaultHasher;
use core::hash::BuildHasher;

/// Builds the default hasher of a map from its seeds.
///
/// The hasher of `schnellru` has another algorithm. Proved: equal seeds and equal bytes give equal hashes.
#[derive(Clone, Copy)]
pub struct RandomState(lru_limits::RandomState);

impl RandomState {
    /// Takes these seeds, so that each run gives equal hashes. If strangers choose the keys, they must not know the
    /// seeds.
    ///
    /// ```
    /// use jeerdurian::RandomState;
    /// use std::hash::BuildHasher;
    ///
    /// let (one, other) = (RandomState::with_seeds([1, 2, 3, 4]), RandomState::with_seeds([1, 2, 3, 4]));
    /// assert_eq!(one.hash_one("key"), other.hash_one("key"));
    /// ```
    pub const fn with_seeds(seeds: [u64; 4]) -> Self {
        RandomState(lru_limits::RandomState::with_seeds(seeds))
    }
}

/// Does not show the seeds.
impl core::fmt::Debug for RandomState {
    fn fmt(&self, f: &mut core::fmt::Formatter<'_>) -> core::fmt::Result {
        self.0.fmt(f)
    }
}

impl BuildHasher for RandomState {
    type Hasher = DefaultHasher;

    #[inline]
    fn build_hasher(&self) -> DefaultHasher {
        self.0.build_hasher()
    }
}

#[cfg(feature = "runtime-rng")]
impl Default for RandomState {
    /// Takes random seeds, made from the random seeds of std's hash maps.
    fn default() -> Self {
        extern crate std;
        let state = std::collections::hash_map::RandomState::new();
        RandomState::with_seeds([0u8, 1, 2, 3].map(|n| state.hash_one(n)))
    }
}
