//! Keys, values, hashers and limiters that panic on request, or *lie*: return anything. Keys and values record which of
//! them live.
#![allow(dead_code)]

use jeerdurian::{Limiter, LruMap};
use std::cell::RefCell;
use std::collections::BTreeSet;
use std::hash::{BuildHasher, DefaultHasher, Hash, Hasher};
use std::panic::{AssertUnwindSafe, catch_unwind};

/// The kinds of callbacks into the caller's code.
#[derive(Clone, Copy, Debug, PartialEq, Eq)]
pub enum Kind {
    Compare,
    Hash,
    Build,
    Over,
    Insert,
    Replace,
    Removed,
    Cleared,
    Grow,
    CloneKey,
    CloneValue,
    CloneLimiter,
    CloneHasher,
    DropKey,
    DropValue,
    Closure,
    Into,
}

pub const KINDS: [Kind; 17] = [
    Kind::Compare,
    Kind::Hash,
    Kind::Build,
    Kind::Over,
    Kind::Insert,
    Kind::Replace,
    Kind::Removed,
    Kind::Cleared,
    Kind::Grow,
    Kind::CloneKey,
    Kind::CloneValue,
    Kind::CloneLimiter,
    Kind::CloneHasher,
    Kind::DropKey,
    Kind::DropValue,
    Kind::Closure,
    Kind::Into,
];

/// What the callbacks of a thread do, and which keys and values live.
#[derive(Default)]
pub struct World {
    pub live: BTreeSet<u64>,
    next: u64,
    /// The kind of callback that panics, and after how many more of its calls.
    pub fuse: Option<(Kind, u32)>,
    /// The state of a random generator. If it is not zero, keys and limiters lie.
    pub lies: u64,
    /// If it is n > 0, one of n callbacks panics.
    pub panics: u64,
}

thread_local! {
    pub static WORLD: RefCell<World> = RefCell::default();
}

pub fn world<R>(f: impl FnOnce(&mut World) -> R) -> R {
    WORLD.with(|it| f(&mut it.borrow_mut()))
}

/// A random number below `n`, or zero if keys and limiters do not lie.
pub fn any(n: u64) -> u64 {
    world(|it| {
        if it.lies == 0 {
            return 0;
        }
        it.lies = it.lies.wrapping_mul(6364136223846793005).wrapping_add(1442695040888963407);
        (it.lies >> 33) % n
    })
}

/// Called by each callback: panics if `fuse` or `panics` says so.
pub fn step(kind: Kind) {
    let often = world(|it| it.panics);
    let is_due = world(|it| match &mut it.fuse {
        Some((due, left)) if *due == kind => {
            *left -= 1;
            *left == 0
        }
        _ => false,
    });
    if is_due {
        world(|it| it.fuse = None);
    }
    if (is_due || (often > 0 && any(often) == 1)) && !std::thread::panicking() {
        std::panic::resume_unwind(Box::new(kind));
    }
}

fn born() -> u64 {
    world(|it| {
        it.next += 1;
        it.live.insert(it.next);
        it.next
    })
}

fn assert_lives(id: u64) {
    assert!(world(|it| it.live.contains(&id)), "a dropped entry is used");
}

fn dies(id: u64) {
    let was_alive = world(|it| it.live.remove(&id));
    if !was_alive {
        eprintln!("dropped twice");
        std::process::abort();
    }
}

/// A key or a value with a payload, whose type decides size and alignment.
pub struct Item<P, const KEY: bool> {
    pub id: u64,
    pub number: u64,
    pub payload: P,
}

impl<P: Default, const KEY: bool> Item<P, KEY> {
    pub fn new(number: u64) -> Self {
        Item { id: born(), number, payload: P::default() }
    }
}

impl<P: Default, const KEY: bool> Clone for Item<P, KEY> {
    fn clone(&self) -> Self {
        assert_lives(self.id);
        step(if KEY { Kind::CloneKey } else { Kind::CloneValue });
        Item::new(self.number)
    }
}

impl<P, const KEY: bool> Drop for Item<P, KEY> {
    fn drop(&mut self) {
        dies(self.id);
        step(if KEY { Kind::DropKey } else { Kind::DropValue });
    }
}

pub type Key<P> = Item<P, true>;
pub type Value<P> = Item<P, false>;

impl<P> Hash for Key<P> {
    fn hash<H: Hasher>(&self, hasher: &mut H) {
        assert_lives(self.id);
        step(Kind::Hash);
        (self.number + any(5)).hash(hasher);
    }
}

impl<P> PartialEq for Key<P> {
    fn eq(&self, other: &Self) -> bool {
        assert_lives(self.id);
        assert_lives(other.id);
        step(Kind::Compare);
        if world(|it| it.lies) == 0 { self.number == other.number } else { any(3) == 0 }
    }
}

impl<P> Eq for Key<P> {}

/// A value that `Into` turns into a key to insert.
#[derive(Clone, Copy)]
pub struct Seed(pub u64);

impl Hash for Seed {
    fn hash<H: Hasher>(&self, hasher: &mut H) {
        step(Kind::Hash);
        (self.0 + any(5)).hash(hasher);
    }
}

impl<P> PartialEq<Key<P>> for Seed {
    fn eq(&self, other: &Key<P>) -> bool {
        assert_lives(other.id);
        step(Kind::Compare);
        if world(|it| it.lies) == 0 { self.0 == other.number } else { any(3) == 0 }
    }
}

impl<P: Default> From<Seed> for Key<P> {
    fn from(seed: Seed) -> Self {
        step(Kind::Into);
        Item::new(seed.0)
    }
}

pub struct Builder;

impl BuildHasher for Builder {
    type Hasher = DefaultHasher;

    fn build_hasher(&self) -> DefaultHasher {
        step(Kind::Build);
        DefaultHasher::new()
    }
}

impl Clone for Builder {
    fn clone(&self) -> Self {
        step(Kind::CloneHasher);
        Builder
    }
}

/// A limiter by length and by bytes, with a running count of the entries, and links of type `N`.
pub struct Limit<N> {
    pub most: usize,
    pub bytes: usize,
    pub counted: usize,
    pub links: std::marker::PhantomData<N>,
}

impl<N> Limit<N> {
    pub fn new(most: usize, bytes: usize) -> Self {
        Limit { most, bytes, counted: 0, links: std::marker::PhantomData }
    }
}

impl<N> Clone for Limit<N> {
    fn clone(&self) -> Self {
        step(Kind::CloneLimiter);
        Limit { counted: self.counted, ..Limit::new(self.most, self.bytes) }
    }
}

macro_rules! limit {
    ($($n:ty)*) => {$(
        impl<P: Default + 'static> Limiter<Key<P>, Value<P>> for Limit<$n> {
            type KeyToInsert<'a> = Key<P>;
            type LinkType = $n;

            fn is_over_the_limit(&self, length: usize) -> bool {
                step(Kind::Over);
                length > self.most || any(9) == 1
            }

            fn on_insert(&mut self, _: usize, key: Key<P>, value: Value<P>) -> Option<(Key<P>, Value<P>)> {
                step(Kind::Insert);
                match any(10) {
                    1 => return None,
                    2 => return Some((Item::new(any(50)), value)),
                    _ => {}
                }
                self.counted += 1;
                Some((key, value))
            }

            fn on_replace(&mut self, _: usize, old: &mut Key<P>, key: Key<P>, a: &mut Value<P>, b: &mut Value<P>) -> bool {
                assert_lives(old.id);
                step(Kind::Replace);
                if any(4) == 1 {
                    *old = key;
                    std::mem::swap(a, b);
                }
                any(10) != 1
            }

            fn on_removed(&mut self, key: &mut Key<P>, value: &mut Value<P>) {
                assert_lives(key.id);
                assert_lives(value.id);
                self.counted = self.counted.saturating_sub(1);
                step(Kind::Removed);
                if any(5) == 1 {
                    *value = Item::new(1);
                }
            }

            fn on_cleared(&mut self) {
                self.counted = 0;
                step(Kind::Cleared);
            }

            fn on_grow(&mut self, bytes: usize) -> bool {
                step(Kind::Grow);
                bytes <= self.bytes && any(3) != 1
            }
        }
    )*};
}

limit!(u8 u16 u32 usize);

/// A map of keys and values with the same payload.
pub type Map<P, N> = LruMap<Key<P>, Value<P>, Limit<N>, Builder>;

/// Fails unless the map's iterators return the same living entries from both ends.
pub fn assert_is_map<P, N, S>(map: &LruMap<Key<P>, Value<P>, Limit<N>, S>)
where
    Limit<N>: Limiter<Key<P>, Value<P>>,
    S: BuildHasher,
{
    let ids: Vec<_> = map.iter().map(|(key, value)| (key.id, value.id)).collect();
    assert_eq!(ids.len(), map.len());
    assert!(map.iter().rev().map(|(key, value)| (key.id, value.id)).eq(ids.iter().rev().copied()));
    ids.iter().for_each(|(key, value)| {
        assert_lives(*key);
        assert_lives(*value);
    });
}

/// Calls `f`. Returns `None` after a requested panic; any other panic fails the test.
pub fn told<R>(f: impl FnOnce() -> R) -> Option<R> {
    match catch_unwind(AssertUnwindSafe(f)) {
        Ok(result) => Some(result),
        Err(panic) if panic.is::<Kind>() => None,
        Err(panic) => match panic.downcast_ref::<String>() {
            Some(text) if text.starts_with("failed to reserve") => None,
            _ => std::panic::resume_unwind(panic),
        },
    }
}

/// Makes a closure that returns a random number below its argument. The numbers depend on the seed.
pub fn numbers(seed: u64) -> impl FnMut(u64) -> u64 {
    let mut random = seed.wrapping_mul(0x9e37_79b9_7f4a_7c15) | 1;
    move |n| {
        random ^= random << 13;
        random ^= random >> 7;
        random ^= random << 17;
        (random >> 20) % n
    }
}
