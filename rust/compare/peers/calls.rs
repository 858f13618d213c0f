//! Random calls on the crates `lru` and `hashlink`, and the same calls on the doors of jeerdurian.
//!
//!     calls [CALLS [SEED]]        1,000,000 calls of each crate, if nothing else is said
//!
//! After each call, compares the result, the order, the stored keys, the length, and the drops in their order.

use std::borrow::Borrow;
use std::cell::RefCell;
use std::fmt::{self, Debug, Formatter};
use std::hash::{BuildHasherDefault, DefaultHasher, Hash, Hasher};

type State = BuildHasherDefault<DefaultHasher>;

thread_local! {
    static DROPS: RefCell<Vec<(u32, u32)>> = const { RefCell::new(Vec::new()) };
}

fn dropped() -> Vec<(u32, u32)> {
    DROPS.with(|it| std::mem::take(&mut *it.borrow_mut()))
}

/// Keys are equal if their numbers are. The tag shows which of two equal keys is stored.
struct Key(u32, u32);

impl PartialEq for Key {
    fn eq(&self, other: &Key) -> bool {
        self.0 == other.0
    }
}

impl Eq for Key {}

impl Hash for Key {
    fn hash<H: Hasher>(&self, hasher: &mut H) {
        self.0.hash(hasher);
    }
}

impl Borrow<u32> for Key {
    fn borrow(&self) -> &u32 {
        &self.0
    }
}

impl Debug for Key {
    fn fmt(&self, f: &mut Formatter<'_>) -> fmt::Result {
        write!(f, "{}.{}", self.0, self.1)
    }
}

impl Clone for Key {
    fn clone(&self) -> Key {
        Key(self.0, self.1 + 1)
    }
}

impl Drop for Key {
    fn drop(&mut self) {
        DROPS.with(|it| it.borrow_mut().push((self.0, self.1)));
    }
}

struct Value(u32);

impl Debug for Value {
    fn fmt(&self, f: &mut Formatter<'_>) -> fmt::Result {
        write!(f, "{}", self.0)
    }
}

impl Clone for Value {
    fn clone(&self) -> Value {
        Value(self.0 + 1)
    }
}

impl Drop for Value {
    fn drop(&mut self) {
        DROPS.with(|it| it.borrow_mut().push((u32::MAX, self.0)));
    }
}

/// A call: its kind, the number of its key, and a number for all other choices.
#[derive(Clone, Copy, Debug)]
struct Call(u32, u32, u32);

trait Cache {
    /// How many kinds of calls there are. The last `SHRINKING` of them make a cache smaller.
    const KINDS: u32;
    const SHRINKING: u32;

    fn make(capacity: usize) -> Self;
    fn call(&mut self, call: Call) -> String;
    fn order(&self) -> String;
}

fn shown(it: impl Debug) -> String {
    format!("{it:?}")
}

/// Shows a value, and then writes another one in its place.
fn written(value: Option<&mut Value>, n: u32) -> String {
    let was = shown(&value);
    if let Some(value) = value {
        value.0 = n;
    }
    was
}

/// Takes from the front or the back, as the bits of `n` say, and goes on after the iterator is empty.
fn both_ends<T>(len: usize, n: u32, mut next: impl FnMut(bool) -> Option<T>) -> Vec<Option<T>> {
    (0..len + 2).map(|i| next((n >> (i % 9)) & 1 == 0)).collect()
}

mod lru_there {
    use lru as krate;
    include!("lru_calls.rs");
}

mod lru_here {
    use jeerdurian::lru as krate;
    include!("lru_calls.rs");
}

mod hashlink_there {
    use hashlink as krate;
    include!("hashlink_calls.rs");
}

mod hashlink_here {
    use jeerdurian::hashlink as krate;
    include!("hashlink_calls.rs");
}

struct Random(u64);

impl Random {
    fn below(&mut self, n: u64) -> u64 {
        self.0 ^= self.0 << 13;
        self.0 ^= self.0 >> 7;
        self.0 ^= self.0 << 17;
        ((u128::from(self.0.wrapping_mul(0x2545_f491_4f6c_dd1d)) * u128::from(n)) >> 64) as u64
    }

    fn capacity(&mut self) -> usize {
        match self.below(10) {
            0 => usize::MAX,
            1 => 0,
            2 => 1,
            3 => self.below(300) as usize,
            _ => self.below(24) as usize,
        }
    }
}

/// Makes one cache of each crate, calls both, and drops both.
fn life<A: Cache, B: Cache>(calls: u64, random: &mut Random) {
    let capacity = random.capacity();
    let keys = [4, 30, 60, 600][random.below(4) as usize];
    let kinds = A::KINDS - if random.below(2) == 0 { A::SHRINKING } else { 0 };
    let (mut there, mut here) = (A::make(capacity), B::make(capacity));
    for _ in 0..calls {
        let kinds = if random.below(30) == 0 { A::KINDS } else { kinds };
        let [kind, key, n] = [kinds.into(), keys, 1000].map(|it| random.below(it) as u32);
        let call = Call(kind, key, n);
        dropped();
        let (answer, drops) = (there.call(call), dropped());
        assert_eq!(answer, here.call(call), "{call:?}, capacity {capacity}");
        assert_eq!(drops, dropped(), "drops of {call:?}, capacity {capacity}");
        assert_eq!(there.order(), here.order(), "the order after {call:?}, capacity {capacity}");
    }
    dropped();
    drop(there);
    let mut drops = dropped();
    drop(here);
    // Both drop the entries of a cache in the order of their tables.
    let mut drops_here = dropped();
    drops.sort();
    drops_here.sort();
    assert_eq!(drops, drops_here, "drops of a cache");
}

fn compare<A: Cache, B: Cache>(name: &str, calls: u64, random: &mut Random) {
    let (mut done, mut caches) = (0, 0);
    while done < calls {
        let some = [50, 400, 3000][random.below(3) as usize].min(calls - done);
        life::<A, B>(some, random);
        done += some;
        caches += 1;
    }
    println!("{name}: {done} calls on {caches} caches agree");
}

fn main() {
    let mut args = std::env::args().skip(1).map(|it| it.parse().expect("a number"));
    let calls = args.next().unwrap_or(1_000_000);
    let mut random = Random(args.next().unwrap_or(88_172_645_463_325_252));
    compare::<lru_there::Entries, lru_here::Entries>("lru", calls, &mut random);
    compare::<lru_there::Texts, lru_here::Texts>("lru, String by str", calls / 10, &mut random);
    compare::<lru_there::Bytes, lru_here::Bytes>("lru, Box<[u8]> by [u8]", calls / 10, &mut random);
    compare::<hashlink_there::Entries, hashlink_here::Entries>("hashlink", calls, &mut random);
    compare::<hashlink_there::Texts, hashlink_here::Texts>("hashlink, String by str", calls / 10, &mut random);
}
