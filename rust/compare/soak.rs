//! Makes a billion random calls on one map of each crate, with few comparisons, to find what only long runs show.
//!
//!     soak [CALLS [SEED]]
//!
//! After each million calls, compares a sum of the answers, and the order. No insert may report that the map ran out of
//! memory. The keys change their range from round to round, so that the table grows, is rehashed and shrinks.
use jeerdurian::More;

struct Random(u64);

impl Random {
    fn below(&mut self, n: u64) -> u64 {
        self.0 ^= self.0 << 13;
        self.0 ^= self.0 >> 7;
        self.0 ^= self.0 << 17;
        ((u128::from(self.0.wrapping_mul(0x2545_f491_4f6c_dd1d)) * u128::from(n)) >> 64) as u64
    }
}

type Upstream = schnellru::LruMap<u64, u64, schnellru::ByLength>;
type Here = jeerdurian::LruMap<u64, u64, jeerdurian::ByLength>;

macro_rules! round {
    ($name:ident, $map:ty, |$m:ident, $k:ident, $v:ident| $insert:expr) => {
        /// A million calls with keys below `keys`. Returns a sum of the answers.
        fn $name($m: &mut $map, seed: u64, keys: u64) -> u64 {
            let (mut random, mut sum) = (Random(seed), 0u64);
            for $v in 0..1_000_000u64 {
                let ($k, kind) = (random.below(keys), random.below(100));
                let answer = match kind {
                    0..=39 => $insert,
                    40..=59 => $m.get(&$k).map_or(3, |it| *it),
                    60..=79 => $m.remove(&$k).unwrap_or(5),
                    80..=89 => $m.get_or_insert($k, || $v).map_or(7, |it| *it),
                    90..=94 => $m.pop_oldest().map_or(9, |it| it.0 ^ it.1),
                    95..=97 => $m.peek(&$k).copied().unwrap_or(11),
                    98 => $m.pop_newest().map_or(13, |it| it.0 ^ it.1),
                    _ => $m.peek_newest().map_or(15, |it| it.0 ^ it.1),
                };
                sum = sum.wrapping_mul(31).wrapping_add(answer);
            }
            sum
        }
    };
}

round!(upstream, Upstream, |m, k, v| u64::from(m.insert(k, v)));
round!(here, Here, |m, k, v| u64::from(m.fallible().insert(k, v).expect("no request was refused")));

fn main() {
    let mut args = std::env::args().skip(1).map(|it| it.parse::<u64>().expect("a number"));
    let (calls, seed) = (args.next().unwrap_or(1_000_000_000), args.next().unwrap_or(1));
    let mut random = Random(seed | 1);
    let mut a = Upstream::new(schnellru::ByLength::new(1));
    let mut b = Here::new(jeerdurian::ByLength::new(1));
    for round in 0..calls / 1_000_000 {
        let most = [10, 1000, 100_000, 10_000_000][random.below(4) as usize];
        let keys = 1 + random.below(most);
        let (limit, seed) = (1 + random.below(keys) as u32, random.below(u64::MAX) | 1);
        *a.limiter_mut() = schnellru::ByLength::new(limit);
        *b.limiter_mut() = jeerdurian::ByLength::new(limit);
        assert_eq!(upstream(&mut a, seed, keys), here(&mut b, seed, keys), "round {round}, seed {seed}, keys {keys}");
        assert!(a.iter().eq(b.iter()), "round {round}, seed {seed}, keys {keys}: the order");
        if round % 7 == 3 {
            b.shrink_to_fit();
        }
        if round % 31 == 30 {
            a.clear();
            b.clear();
        }
    }
    println!("{} calls, {} entries at the end", calls / 1_000_000 * 1_000_000, b.len());
}
