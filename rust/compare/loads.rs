//! Times eight loads on schnellru and on jeerdurian in one program, each with its own hasher and with the other's.
//!
//!     loads ROUNDS [SIZES [LOAD..]]      prints: load size, and nanoseconds an operation for each engine
//!
//! `operations` says what a load is, and how its time is taken.
mod operations;

use operations::{Cache, Engine, run};
use std::hash::BuildHasher;

trait Made: BuildHasher {
    fn made() -> Self;
}

impl Made for schnellru::RandomState {
    fn made() -> Self {
        Default::default()
    }
}

// All maps of a process have the same seeds, like the maps of a checkout without a source of random numbers: the
// processor predicts the branches of a fill that it has seen before.
impl Made for jeerdurian::RandomState {
    fn made() -> Self {
        static SEEDS: std::sync::OnceLock<jeerdurian::RandomState> = std::sync::OnceLock::new();
        *SEEDS.get_or_init(Default::default)
    }
}

macro_rules! engine {
    ($name:ident, $krate:ident) => {
        struct $name<S>($krate::LruMap<u64, u64, $krate::ByLength, S>);

        impl<S: Made> Cache for $name<S> {
            fn make(capacity: usize) -> Self {
                $name($krate::LruMap::with_hasher($krate::ByLength::new(capacity as u32), S::made()))
            }

            #[inline]
            fn insert(&mut self, k: u64, v: u64) {
                self.0.insert(k, v);
            }

            #[inline]
            fn get(&mut self, k: u64) -> Option<u64> {
                self.0.get(&k).map(|v| *v)
            }

            #[inline]
            fn peek(&self, k: u64) -> Option<u64> {
                self.0.peek(&k).copied()
            }

            #[inline]
            fn remove(&mut self, k: u64) -> Option<u64> {
                self.0.remove(&k)
            }

            #[inline]
            fn get_or_insert(&mut self, k: u64) -> u64 {
                self.0.get_or_insert(k, || k ^ 7).map_or(0, |v| *v)
            }

            fn sum(&self, s: u64) -> u64 {
                self.0.iter().fold(s, |s, (k, v)| s.wrapping_mul(31).wrapping_add(k ^ v))
            }
        }
    };
}

engine!(Upstream, schnellru);
engine!(Here, jeerdurian);

const ENGINES: [Engine; 4] = [
    ("schnellru", run::<Upstream<schnellru::RandomState>>),
    ("here", run::<Here<jeerdurian::RandomState>>),
    ("schnellru,hash-here", run::<Upstream<jeerdurian::RandomState>>),
    ("here,hash-schnellru", run::<Here<schnellru::RandomState>>),
];

fn main() {
    operations::time(&ENGINES, "1000,50000,1000000", 1_000_000, |_| u32::MAX as usize - 1);
}
