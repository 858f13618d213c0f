//! The eight loads: which operations each makes, and how their time is taken.
//!
//! A cache is filled, and then the operations are made; each part is timed alone. A time is the best of several rounds;
//! in each round the engines take turns. ENGINES (names with | between them) and COUNT (operations) are for counts.py,
//! which counts the instructions of `fill` or of `operate`.
use std::hint::black_box;
use std::time::Instant;

#[derive(Clone, Copy)]
pub enum Kind {
    Insert,
    Get,
    Peek,
    Remove,
    GetOrInsert,
}

pub trait Cache {
    fn make(capacity: usize) -> Self;
    fn insert(&mut self, k: u64, v: u64);
    fn get(&mut self, k: u64) -> Option<u64>;
    fn peek(&self, k: u64) -> Option<u64>;
    fn remove(&mut self, k: u64) -> Option<u64>;
    fn get_or_insert(&mut self, k: u64) -> u64;
    fn sum(&self, s: u64) -> u64;
}

/// What a run took, in seconds, and a sum of the answers.
pub struct Run {
    fill: f64,
    operate: f64,
    answer: u64,
}

/// Fills a cache with the first `filled` keys, and makes the other operations.
pub fn run<C: Cache>(capacity: usize, filled: usize, kinds: &[Kind], keys: &[u64]) -> Run {
    let mut cache = C::make(capacity);
    let start = Instant::now();
    fill(&mut cache, &keys[..filled]);
    let fill = start.elapsed().as_secs_f64();
    let start = Instant::now();
    let sum = operate(&mut cache, &kinds[filled..], &keys[filled..]);
    let operate = start.elapsed().as_secs_f64();
    Run { fill, operate, answer: black_box(cache.sum(sum)) }
}

#[inline(never)]
fn fill<C: Cache>(cache: &mut C, keys: &[u64]) {
    for &key in keys {
        cache.insert(key, key ^ 7);
    }
}

#[inline(never)]
fn operate<C: Cache>(cache: &mut C, kinds: &[Kind], keys: &[u64]) -> u64 {
    let mut sum = 0u64;
    for (kind, &key) in kinds.iter().zip(keys) {
        match kind {
            Kind::Insert => cache.insert(key, key ^ 7),
            Kind::Get => sum = sum.wrapping_mul(31).wrapping_add(cache.get(key).unwrap_or(1)),
            Kind::Peek => sum = sum.wrapping_mul(31).wrapping_add(cache.peek(key).unwrap_or(1)),
            Kind::Remove => sum ^= cache.remove(key).unwrap_or(1),
            Kind::GetOrInsert => sum = sum.wrapping_add(cache.get_or_insert(key)),
        }
    }
    sum
}

struct Random(u64);

impl Random {
    fn next(&mut self) -> u64 {
        self.0 ^= self.0 << 13;
        self.0 ^= self.0 >> 7;
        self.0 ^= self.0 << 17;
        self.0.wrapping_mul(0x2545_f491_4f6c_dd1d)
    }

    fn below(&mut self, n: u64) -> u64 {
        ((u128::from(self.next()) * u128::from(n)) >> 64) as u64
    }

    fn zipf(&mut self, n: u64) -> u64 {
        let u = (self.next() >> 11) as f64 / (1u64 << 53) as f64;
        ((n as f64).powf(u) - 1.0) as u64
    }
}

pub type Engine = (&'static str, fn(usize, usize, &[Kind], &[u64]) -> Run);

const LOADS: [&str; 8] =
    ["fill", "get-hit", "get-miss", "peek-hit", "replace", "evict", "remove+insert", "zipf-get-or-insert"];

fn spread(i: u64) -> u64 {
    i.wrapping_mul(0x9e37_79b9_7f4a_7c15)
}

/// Operation `i` of a load on `n` keys.
fn operation(load: &str, i: u64, n: u64, random: &mut Random) -> (Kind, u64) {
    match load {
        "get-hit" => (Kind::Get, spread(random.below(n))),
        "get-miss" => (Kind::Get, spread(n + random.below(n))),
        "peek-hit" => (Kind::Peek, spread(random.below(n))),
        "replace" => (Kind::Insert, spread(random.below(n))),
        "evict" => (Kind::Insert, spread(n + i)),
        "remove+insert" => (if i % 2 == 0 { Kind::Remove } else { Kind::Insert }, spread(random.below(n))),
        _ => (Kind::GetOrInsert, spread(random.zipf(n))),
    }
}

/// Prints the line of a load on `n` keys.
fn measure(load: &str, n: u64, rounds: usize, count: u64, capacity: usize, engines: &[Engine]) {
    let operations = if load == "fill" { 0 } else { count };
    let mut random = Random(88_172_645_463_325_252);
    let fill = (0..n).map(|i| (Kind::Insert, spread(i)));
    let all = fill.chain((0..operations).map(|i| operation(load, i, n, &mut random)));
    let (kinds, keys): (Vec<Kind>, Vec<u64>) = all.unzip();
    let fills = if operations == 0 { (count / n).max(1) } else { 1 };
    let mut best = vec![f64::INFINITY; engines.len()];
    let mut expected = None;
    for _ in 0..rounds {
        for (engine, best) in engines.iter().zip(&mut best) {
            let runs: Vec<Run> = (0..fills).map(|_| engine.1(capacity, n as usize, &kinds, &keys)).collect();
            let answer = runs[0].answer;
            assert_eq!(*expected.get_or_insert(answer), answer, "{load}: {} answers otherwise", engine.0);
            *best = best.min(match operations {
                0 => runs.iter().map(|it| it.fill).sum::<f64>() / (fills * n) as f64,
                _ => runs[0].operate / operations as f64,
            });
        }
    }
    println!("{load} {n} {}", best.iter().map(|it| format!("{:.2}", it * 1e9)).collect::<Vec<_>>().join(" "));
}

/// Times the loads that the arguments name, ROUNDS [SIZES [LOAD..]]. `capacity_of_fill` is the cache's capacity in a
/// fill with n keys.
pub fn time(all: &[Engine], sizes: &str, count: u64, capacity_of_fill: fn(u64) -> usize) {
    let mut args = std::env::args().skip(1);
    let rounds = args.next().and_then(|it| it.parse().ok()).unwrap_or(3);
    let sizes = args.next().unwrap_or(sizes.into());
    let only: Vec<String> = args.collect();
    let named = std::env::var("ENGINES").ok();
    let is_named = |name: &str| named.as_ref().is_none_or(|them| them.split('|').any(|it| it == name));
    let engines: Vec<Engine> = all.iter().copied().filter(|it| is_named(it.0)).collect();
    let count = std::env::var("COUNT").ok().and_then(|it| it.parse().ok()).unwrap_or(count);
    println!("# {}", engines.iter().map(|it| it.0).collect::<Vec<_>>().join(" "));
    for n in sizes.split(',').map(|it| it.parse().expect("a size")) {
        for load in LOADS.iter().filter(|load| only.is_empty() || only.iter().any(|it| load.contains(it.as_str()))) {
            let capacity = match *load {
                "fill" => capacity_of_fill(n),
                "zipf-get-or-insert" => (n / 4) as usize,
                _ => n as usize,
            };
            measure(load, n, rounds, count, capacity, &engines);
        }
    }
}
