//! Times the map on 24 loads, 8 kinds at 1,000, 50,000 and 1,000,000 keys, beside the crates `schnellru` and `lru`.
//!
//! A load's time is that of a run with its fill, less that of a run of the fill alone, each the best of some rounds,
//! with the engines taken in turn. All engines must give the same answers. With the word `memory` it tells instead what
//! a map of 1,000,000 pairs takes.
mod more;

use std::hint::black_box;
use std::process::Command;
use std::sync::atomic::{AtomicBool, Ordering};
use std::time::{Duration, Instant};

const INSERT: u8 = 0;
const GET: u8 = 1;
const PEEK: u8 = 2;
const REMOVE: u8 = 3;
const GET_OR_INSERT: u8 = 4;

unsafe extern "C" {
    fn rattle_load(length: u32, kinds: *const u8, count: usize, keys: *const u64, same: usize) -> u64;
}

fn here(length: u32, kinds: &[u8], keys: &[u64]) -> u64 {
    unsafe { rattle_load(length, kinds.as_ptr(), kinds.len(), keys.as_ptr(), keys.len()) }
}

/// What a load does to a crate's map.
macro_rules! run {
    ($name:ident, $new:expr, $insert:ident, $remove:ident) => {
        #[inline(never)]
        fn $name(length: u32, kinds: &[u8], keys: &[u64]) -> u64 {
            let mut map = $new(length);
            let mut sum = 0u64;
            for (kind, &key) in kinds.iter().zip(keys) {
                match *kind {
                    INSERT => drop(map.$insert(key, key ^ 7)),
                    GET => {
                        sum = sum
                            .wrapping_mul(31)
                            .wrapping_add(map.get(&key).map_or(1, |value| *value))
                    }
                    PEEK => {
                        sum = sum
                            .wrapping_mul(31)
                            .wrapping_add(map.peek(&key).map_or(1, |value| *value))
                    }
                    REMOVE => sum ^= map.$remove(&key).unwrap_or(1),
                    _ => match map.get(&key) {
                        Some(value) => sum = sum.wrapping_add(*value),
                        None => drop(map.$insert(key, key ^ 7)),
                    },
                }
            }
            map.iter().fold(sum, |sum, (key, value)| {
                sum.wrapping_mul(31).wrapping_add(key ^ value)
            })
        }
    };
}

fn by_length(length: u32) -> schnellru::LruMap<u64, u64> {
    schnellru::LruMap::with_seed(schnellru::ByLength::new(length), [1, 2, 3, 4])
}

run!(upstream, by_length, insert, remove);

#[cfg(lru)]
fn cache(length: u32) -> lru::LruCache<u64, u64> {
    if length == u32::MAX - 1 {
        lru::LruCache::unbounded()
    } else {
        lru::LruCache::new(length as usize)
    }
}

#[cfg(lru)]
run!(lru_crate, cache, put, pop);

type Engine = (&'static str, fn(u32, &[u8], &[u64]) -> u64);

/// Drawn numbers.
struct Draw(u64);

impl Draw {
    fn below(&mut self, bound: u64) -> u64 {
        self.0 ^= self.0 << 13;
        self.0 ^= self.0 >> 7;
        self.0 ^= self.0 << 17;
        ((self.0.wrapping_mul(0x2545_f491_4f6c_dd1d) as u128 * bound as u128) >> 64) as u64
    }
    /// A number below the bound, each as likely to be below the root of the bound as above it.
    fn skewed(&mut self, bound: u64) -> u64 {
        let part = self.below(1 << 53) as f64 / (1u64 << 53) as f64;
        ((bound as f64).powf(part) - 1.0) as u64
    }
}

fn spread(number: u64) -> u64 {
    number.wrapping_mul(0x9e37_79b9_7f4a_7c15)
}

/// The loads of so many keys: the name, the length, whether the keys are there before, and the calls.
fn loads(n: u64) -> Vec<(&'static str, u32, bool, Vec<(u8, u64)>)> {
    let count = 1_000_000;
    // A short step needs many, or the fill that is taken off drowns it.
    let many = if n > 100_000 { 4 * count } else { count };
    let mut draw = Draw(88172645463325252);
    let full = n as u32;
    let mut other = Draw(88172645463325252);
    let removals = (0..count)
        .map(|i| (if i % 2 == 0 { REMOVE } else { INSERT }, spread(other.below(n))))
        .collect();
    let skewed = (0..count)
        .map(|_| (GET_OR_INSERT, spread(other.skewed(n))))
        .collect();
    vec![
        (
            "fill",
            u32::MAX - 1,
            false,
            (0..n).map(|i| (INSERT, spread(i))).collect(),
        ),
        (
            "get hit",
            full,
            true,
            (0..count).map(|_| (GET, spread(draw.below(n)))).collect(),
        ),
        (
            "get miss",
            full,
            true,
            (0..many).map(|_| (GET, spread(n + draw.below(n)))).collect(),
        ),
        (
            "peek hit",
            full,
            true,
            (0..many).map(|_| (PEEK, spread(draw.below(n)))).collect(),
        ),
        (
            "replace",
            full,
            true,
            (0..count).map(|_| (INSERT, spread(draw.below(n)))).collect(),
        ),
        (
            "evict",
            full,
            true,
            (0..count).map(|i| (INSERT, spread(n + i as u64))).collect(),
        ),
        ("remove and insert", full, true, removals),
        ("skewed get or insert", full / 4, false, skewed),
    ]
}

fn seconds(run: impl FnOnce() -> u64) -> (f64, u64) {
    let start = Instant::now();
    let answer = black_box(run());
    (start.elapsed().as_secs_f64(), answer)
}

/// Times the loads with each of these numbers of keys: the best of some rounds, without the fill.
fn measure(engines: &[Engine], rounds: usize, sizes: &[u64]) {
    println!(
        "{:<28}{}",
        "ns a call",
        engines.iter().map(|e| format!("{:>16}", e.0)).collect::<String>()
    );
    let mut logs = vec![0.0f64; engines.len()];
    let mut rows = 0;
    for &n in sizes {
        let fill: Vec<u64> = (0..n).map(spread).collect();
        for (name, length, filled, calls) in loads(n) {
            let before: &[u64] = if filled { &fill } else { &[] };
            let kinds: Vec<u8> = before
                .iter()
                .map(|_| INSERT)
                .chain(calls.iter().map(|c| c.0))
                .collect();
            let keys: Vec<u64> = before.iter().copied().chain(calls.iter().map(|c| c.1)).collect();
            let mut best = vec![(f64::INFINITY, f64::INFINITY); engines.len()];
            let mut expected = None;
            for _ in 0..rounds {
                for (engine, best) in engines.iter().zip(&mut best) {
                    best.0 = best
                        .0
                        .min(seconds(|| engine.1(length, &kinds[..before.len()], &keys[..before.len()])).0);
                    let (whole, answer) = seconds(|| engine.1(length, &kinds, &keys));
                    best.1 = best.1.min(whole);
                    assert_eq!(
                        *expected.get_or_insert(answer),
                        answer,
                        "{name}: {} answers otherwise",
                        engine.0
                    );
                }
            }
            let ns =
                |b: &(f64, f64)| (b.1 - if filled { b.0 } else { 0.0 }).max(1e-9) * 1e9 / calls.len() as f64;
            let row = best
                .iter()
                .map(|b| format!("{:8.1} {:6.2}x", ns(b), ns(b) / ns(&best[0])));
            println!("{:<28}{}", format!("{name}, {n}"), row.collect::<String>());
            logs.iter_mut()
                .zip(&best)
                .for_each(|(log, b)| *log += (ns(b) / ns(&best[0])).ln());
            rows += 1;
        }
    }
    println!(
        "{:<28}{}",
        "geometric mean",
        logs.iter()
            .map(|log| format!("{:>15.2}x", (log / rows as f64).exp()))
            .collect::<String>()
    );
}

/// The resident bytes of this process, as `ps` tells them.
fn resident() -> u64 {
    let id = std::process::id().to_string();
    let told = Command::new("ps").args(["-o", "rss=", "-p", &id]).output().unwrap();
    String::from_utf8(told.stdout).unwrap().trim().parse::<u64>().unwrap() * 1024
}

/// What the engine adds to the resident bytes while it looks into a map of 1,000,000 pairs.
fn memory(engine: &Engine) {
    let n = 1_000_000u64;
    let peeks = 20_000_000;
    let kinds: Vec<u8> = (0..n).map(|_| INSERT).chain((0..peeks).map(|_| PEEK)).collect();
    let keys: Vec<u64> = (0..n).chain((0..peeks).map(|i| i * 7 % n)).map(spread).collect();
    let (done, before) = (AtomicBool::new(false), resident());
    let samples = std::thread::scope(|scope| {
        let watch = scope.spawn(|| {
            let mut samples = Vec::new();
            while !done.load(Ordering::SeqCst) {
                samples.push(resident());
                std::thread::sleep(Duration::from_millis(50));
            }
            samples
        });
        black_box(engine.1(u32::MAX - 1, &kinds, &keys));
        done.store(true, Ordering::SeqCst);
        watch.join().unwrap()
    });
    // The fill, and the walk at the end, are a small part of the time.
    let during = samples[samples.len() / 2];
    println!(
        "{:<16}{:>6.1} MiB",
        engine.0,
        during.saturating_sub(before) as f64 / (1 << 20) as f64
    );
}

/// The same of each engine, in a process of its own: what one gave back may stay with its process.
fn memory_of_each(engines: &[Engine]) {
    for engine in engines {
        let done = Command::new(std::env::current_exe().unwrap())
            .args(["memory", engine.0])
            .status();
        assert!(done.unwrap().success());
    }
}

fn main() {
    let engines: Vec<Engine> = vec![
        ("schnellru", upstream),
        #[cfg(lru)]
        ("lru", lru_crate),
        ("here", here),
    ];
    let mut words = std::env::args().skip(1);
    match words.next().as_deref() {
        Some("memory") => match words.next() {
            Some(name) => engines.iter().filter(|e| e.0 == name).for_each(memory),
            None => memory_of_each(&engines),
        },
        Some("more") => more::measure(words.next().and_then(|r| r.parse().ok()).unwrap_or(5)),
        rounds => {
            let rounds = rounds.and_then(|r| r.parse().ok()).unwrap_or(5);
            let sizes: Vec<u64> = words.filter_map(|n| n.parse().ok()).collect();
            let usual = [1_000, 50_000, 1_000_000];
            measure(&engines, rounds, if sizes.is_empty() { &usual } else { &sizes });
        }
    }
}
