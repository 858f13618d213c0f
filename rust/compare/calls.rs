//! Makes the same random calls on schnellru and on jeerdurian, with one hasher. After each call, compares the result,
//! the order, the limiter's callbacks, the memory, the capacity, and the number of hashes: one for the key, and one for
//! each entry that moved.
//!
//!     calls [CALLS [SEED]]       about so many calls in all; prints a line for each limiter
use std::cell::Cell;
use std::collections::BTreeMap;
use std::hash::{BuildHasherDefault, DefaultHasher};
use std::panic::{AssertUnwindSafe, catch_unwind};

thread_local! {
    static HASHES: Cell<u64> = const { Cell::new(0) };
}

/// A hasher that counts the hashes.
#[derive(Default)]
struct Counting(DefaultHasher);

impl std::hash::Hasher for Counting {
    fn write(&mut self, bytes: &[u8]) {
        self.0.write(bytes);
    }

    fn finish(&self) -> u64 {
        HASHES.set(HASHES.get() + 1);
        self.0.finish()
    }
}

type Hasher = BuildHasherDefault<Counting>;

mod upstream {
    use schnellru as krate;
    include!("engine.rs");
}

mod here {
    use jeerdurian as krate;
    include!("engine.rs");
}

/// A call's number, key and value.
#[derive(Clone, Copy, Debug)]
pub struct Call(u64, u64, u64);

/// What is compared after a call.
#[derive(Debug)]
pub struct Seen {
    answer: String,
    order: Vec<(u64, u64)>,
    log: Vec<String>,
    memory: usize,
    capacity: usize,
    hashes: u64,
}

pub trait Engine {
    /// Makes a call, and returns its answer as text.
    fn call(&mut self, call: Call) -> String;

    fn seen(&mut self, answer: String, hashes: u64) -> Seen;
}

/// What a call shows. A panic, such as the panic of `reserve_or_panic`, is an answer.
fn made(engine: &mut dyn Engine, call: Call) -> Seen {
    HASHES.set(0);
    let answer = catch_unwind(AssertUnwindSafe(|| engine.call(call))).unwrap_or("panic".into());
    engine.seen(answer, HASHES.get())
}

struct Random(u64);

impl Random {
    fn next(&mut self) -> u64 {
        self.0 ^= self.0 << 13;
        self.0 ^= self.0 >> 7;
        self.0 ^= self.0 << 17;
        self.0.wrapping_mul(0x2545_f491_4f6c_dd1d) >> 16
    }
}

/// Whether a call may store an entry.
fn stores(call: Call) -> bool {
    matches!(call.0, 0..=29 | 75..=84)
}

/// How many more entries a call reserves space for.
fn reserved(call: Call) -> Option<usize> {
    match call {
        Call(97, _, v) if v % 8 == 0 => Some(v as usize % 3),
        Call(98, k, v) if v % 16 == 0 => Some(k as usize),
        Call(98, k, v) if v % 16 == 1 => Some(usize::MAX >> (k % 4)),
        _ => None,
    }
}

/// How both crates differ on a call, if they do. The names of differences that docs/DIFFERENCES.md lists have no
/// capitals.
fn difference(call: Call, up: &mut Seen, here: &Seen) -> Option<&'static str> {
    // schnellru calls `is_over_the_limit` once more after it evicted the last entry.
    if here.order.is_empty() && up.log.len() == here.log.len() + 1 && up.log.last().is_some_and(|it| it == "over 0") {
        up.log.pop();
    }
    let unstored = stores(call) && here.log.len() == up.log.len() + 1 && here.log.starts_with(&up.log);
    let refused = stores(call) && up.order.len() == up.capacity;
    let is_short = |it: &Seen, n| it.answer == "()" && it.capacity < it.order.len() + n;
    let too_few = reserved(call).is_some_and(|n| is_short(up, n) && !is_short(here, n));
    if up.answer != here.answer {
        Some("ANSWER")
    } else if up.order != here.order {
        Some("ORDER")
    } else if too_few {
        Some("an emptied table gets too little space by a reserve")
    } else if unstored && here.order.is_empty() && here.log.last().is_some_and(|it| it.starts_with("removed")) {
        Some("an accepted entry that was not stored goes to on_removed")
    } else if up.log != here.log {
        Some("CALLBACKS")
    } else if up.memory != here.memory {
        Some("MEMORY")
    } else if up.capacity < here.capacity && refused {
        Some("a table that may not grow is rehashed")
    } else if up.capacity != here.capacity {
        Some("CAPACITY")
    } else if up.hashes != here.hashes {
        Some("HASHES")
    } else {
        None
    }
}

/// Makes calls on a pair of maps until they differ or `calls` are made. Returns how many were made, and the difference.
fn run(which: usize, n: u64, calls: u64, random: &mut Random) -> (u64, Option<(&'static str, String)>) {
    let keys = 1 + random.next() % (3 * n + 4);
    let values = [2, 20, 100][random.next() as usize % 3];
    let (mut up, mut here) = (upstream::make(which, n), here::make(which, n));
    for made_before in 0..calls {
        let call = Call(random.next() % 100, random.next() % keys, random.next() % values);
        let (mut a, b) = (made(&mut *up, call), made(&mut *here, call));
        if let Some(what) = difference(call, &mut a, &b) {
            return (made_before + 1, Some((what, format!("n {n}, keys {keys}, {call:?}: schnellru {a:?}, here {b:?}"))));
        }
    }
    (calls, None)
}

fn main() {
    let mut args = std::env::args().skip(1).map(|it| it.parse::<u64>().expect("a number"));
    let (calls, seed) = (args.next().unwrap_or(10_000_000), args.next().unwrap_or(1));
    std::panic::set_hook(Box::new(|_| {}));
    let names = ["ByLength", "ByMemoryUsage", "Unlimited", "UnlimitedCompact", "logging u8", "logging u16", "logging usize"];
    let mut is_wrong = false;
    for (which, name) in names.iter().enumerate() {
        let mut random = Random(0x9e37_79b9_7f4a_7c15 ^ ((which as u64) << 40) ^ (seed << 8));
        let (mut compared, mut maps, mut found) = (0, 0, BTreeMap::<_, (u64, String)>::new());
        while compared < calls / names.len() as u64 {
            let n = [random.next() % 14, 14, 15, 28, 60, 112, 200, random.next() % 300][maps as usize % 8];
            let (made, end) = run(which, n, [150, 1000, 5000][maps as usize % 3], &mut random);
            compared += made;
            maps += 1;
            if let Some((what, first)) = end {
                found.entry(what).or_insert((0, first)).0 += 1;
            }
        }
        println!("{name}: {compared} calls on {maps} maps");
        for (what, (count, first)) in found {
            is_wrong |= what.starts_with(char::is_uppercase);
            let shown = if what.starts_with(char::is_uppercase) { first } else { String::new() };
            println!("    {count} maps ended: {what} {shown}");
        }
    }
    std::process::exit(i32::from(is_wrong));
}
