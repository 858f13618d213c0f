//! An LRU map with the API and the behaviour of the crate `schnellru` 0.2.4, erased from verified sources.
//!
//! [`LruMap`] keeps its entries in the order of their use. A [`Limiter`] decides which entries it accepts and when it
//! is over its limit. While it is over its limit, the map evicts the least recently used entry.
//!
//! ```
//! use jeerdurian::{ByLength, LruMap};
//!
//! let mut map = LruMap::new(ByLength::new(2));
//! map.insert("a", 1);
//! map.insert("b", 2);
//! map.get(&"a"); // "a" is now the most recently used
//! map.insert("c", 3); // the map is full: "b" is evicted
//! assert!(map.peek(&"b").is_none());
//! ```
//!
//! In Cargo.toml, `schnellru = { package = "jeerdurian", path = ".." }` replaces `schnellru` by this crate. The trait
//! [`More`] adds the calls that `schnellru` lacks.
//!
//! # What is proved
//!
//! The table, the order of use, the limiters and the calls of the map are written in Rattle, which is Rust with
//! contracts, and a prover checks that each function meets its contract. A script removes the contracts, and the result
//! is tested. The code that this crate adds by hand, for Rust's library and for `schnellru`'s signatures, is tested,
//! not proved. The proofs assume that the keys, the hasher and the limiter satisfy the laws of their traits; memory
//! safety does not depend on this assumption (`SAFETY.md`).
#![no_std]
#![deny(missing_debug_implementations, missing_docs, unsafe_op_in_unsafe_fn)]

#[cfg(not(target_pointer_width = "64"))]
compile_error!("the sources are proved for a `usize` of 64 bits");

extern crate alloc;
#[cfg(feature = "std")]
extern crate std;

mod rattle_std;

mod erased;

#[cfg(feature = "std")]
pub mod caches;
mod costs;
mod debug;
#[cfg(any(feature = "lru", feature = "hashlink"))]
mod doors;
mod entry;
mod fallible;
mod hasher;
#[cfg(feature = "hashlink")]
pub mod hashlink;
mod iter;
mod keys;
mod limiter;
#[cfg(feature = "lru")]
pub mod lru;
mod map;
mod more;
#[cfg(feature = "std")]
pub mod tenants;
#[cfg(feature = "std")]
pub mod trace;
mod traits;
mod types;

pub use entry::OccupiedEntry;
pub use fallible::Fallible;
pub use hasher::RandomState;
pub use iter::{Drain, IntoIter, Iter, IterMut, Keys, Values};
pub use limiter::{Admission, Limiter};
pub use map::LruMap;
pub use more::More;
pub use rattle_std::alloc::AllocError;
pub use types::{
    Both, ByBytes, ByCost, ByLength, ByMemoryUsage, ByWeight, Costed, DefaultHasher, GetOrInsertError, Inserted,
    MoveReport, OwnedBytes, ReserveError, Unlimited, UnlimitedCompact, Updated,
};

// The unit tests of schnellru, from a file that `rust/upstream.sh` names, and the names that they import from the root.
#[cfg(all(test, upstream_tests))]
use core::hash::{BuildHasher, Hash};
#[cfg(all(test, upstream_tests))]
include!(env!("UPSTREAM_TESTS"));

// The generator of random numbers that these tests name.
#[cfg(all(test, upstream_tests))]
mod oorandom {
    pub struct Rand32(u64);

    impl Rand32 {
        pub fn new(seed: u64) -> Self {
            Rand32(seed)
        }

        pub fn rand_range(&mut self, range: core::ops::Range<u32>) -> u32 {
            self.0 = self.0.wrapping_mul(6364136223846793005).wrapping_add(1442695040888963407);
            range.start + (self.0 >> 33) as u32 % (range.end - range.start)
        }
    }
}
