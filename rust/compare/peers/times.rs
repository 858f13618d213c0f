//! Times eight loads on `lru`, on `hashlink`, and on their doors, in one program and with one hasher.
//!
//!     times ROUNDS [SIZES [LOAD..]]      prints: load size, and nanoseconds an operation for each engine
//!
//! `operations` says what a load is, and how its time is taken.
#[path = "../operations.rs"]
mod operations;

use operations::{Cache, Engine, run};

type State = lru::DefaultHasher;

macro_rules! engine {
    ($name:ident, $cache:ty, $insert:ident, $remove:ident, |$it:ident, $k:ident| $get_or_insert:expr, $newest:expr) => {
        struct $name($cache);

        impl Cache for $name {
            fn make(capacity: usize) -> Self {
                $name(<$cache>::with_hasher(capacity, State::default()))
            }

            #[inline]
            fn insert(&mut self, k: u64, v: u64) {
                self.0.$insert(k, v);
            }

            #[inline]
            fn get(&mut self, k: u64) -> Option<u64> {
                self.0.get(&k).copied()
            }

            #[inline]
            fn peek(&self, k: u64) -> Option<u64> {
                self.0.peek(&k).copied()
            }

            #[inline]
            fn remove(&mut self, k: u64) -> Option<u64> {
                self.0.$remove(&k)
            }

            #[inline]
            fn get_or_insert(&mut self, $k: u64) -> u64 {
                let $it = &mut self.0;
                $get_or_insert
            }

            fn sum(&self, s: u64) -> u64 {
                let ends = [self.0.iter().next(), self.0.iter().next_back()];
                s ^ ends[$newest].map_or(0, |(k, v)| k ^ v) ^ self.0.len() as u64
            }
        }
    };
}

engine!(Lru, lru::LruCache<u64, u64, State>, put, pop, |it, k| *it.get_or_insert(k, || k ^ 7).unwrap(), 0);
engine!(LruHere, jeerdurian::lru::LruCache<u64, u64, State>, put, pop, |it, k| {
    *it.get_or_insert(k, || k ^ 7).unwrap()
}, 0);
engine!(Hashlink, hashlink::LruCache<u64, u64, State>, insert, remove, |it, k| {
    *it.entry(k).or_insert_with(|| k ^ 7)
}, 1);
engine!(HashlinkHere, jeerdurian::hashlink::LruCache<u64, u64, State>, insert, remove, |it, k| {
    *it.entry(k).or_insert_with(|| k ^ 7)
}, 1);

const ENGINES: [Engine; 4] =
    [("lru", run::<Lru>), ("here", run::<LruHere>), ("hashlink", run::<Hashlink>), ("here", run::<HashlinkHere>)];

fn main() {
    operations::time(&ENGINES, "1000,50000", 400_000, |n| n as usize);
}
