//! Under `ByBytes` all memory of a map, as the allocator counts it, stays within the limit between calls.

mod refusing;

use jeerdurian::{ByBytes, LruMap, More, OwnedBytes};
use refusing::held;
use std::rc::Rc;
use std::sync::Arc;

type Texts = LruMap<String, Option<Vec<String>>, ByBytes>;

/// A generator of random numbers.
struct Random(u64);

impl Random {
    fn below(&mut self, n: u64) -> u64 {
        self.0 = self.0.wrapping_mul(6364136223846793005).wrapping_add(1442695040888963407);
        (self.0 >> 33) % n
    }

    /// A text whose block may be larger than the text.
    fn text(&mut self, n: u64) -> String {
        let mut text = String::with_capacity(self.below(n) as usize);
        text.extend((0..text.capacity() / 2).map(|_| 'a'));
        text
    }

    fn key(&mut self) -> String {
        let mut key = format!("{}", self.below(3000));
        key.reserve(self.below(40) as usize);
        key
    }

    fn value(&mut self) -> Option<Vec<String>> {
        let mut items = Vec::with_capacity(self.below(5) as usize);
        for _ in 0..self.below(4) {
            items.push(self.text(200));
        }
        (self.below(10) > 0).then_some(items)
    }
}

/// Fails if the map takes more bytes than its limit. `base` is the number of other bytes that are allocated.
fn check(map: &Texts, base: i64, call: u64) {
    let bytes = held() - base;
    assert!(bytes <= map.limiter().limit() as i64, "call {call}: {bytes} bytes");
    assert!(bytes as u64 <= map.memory_usage() as u64 + map.limiter().owned(), "call {call}");
    assert!(map.memory_usage() as u64 <= map.limiter().table(), "call {call}");
}

#[test]
fn memory_stays_within_the_limit_between_calls() {
    let mut random = Random(7);
    let base = held();
    let mut map: Texts = LruMap::with_seed(ByBytes::new(300_000), [1, 2, 3, 4]);
    let mut most = 0;
    for call in 0..1_000_000 {
        match random.below(1000) {
            0..500 => drop(map.insert(random.key(), random.value())),
            500..650 => drop(map.get(&random.key()).is_some()),
            650..750 => drop(map.remove(&random.key())),
            750..850 => drop(map.update(random.key(), random.value())),
            850..900 => {
                let value = random.value();
                let _ = map.get_or_insert(random.key(), || value);
            }
            900..950 => drop(map.try_insert(random.key(), random.value())),
            950..990 => drop(map.pop_oldest()),
            990..997 => {
                let _ = map.try_reserve(random.below(5000) as usize);
            }
            997..999 => {
                map.shrink_to_fit();
                if random.below(2) == 0 {
                    let limiter = map.limiter().with_table(map.memory_usage() as u64).with_limit(300_000);
                    map.set_limiter(limiter);
                }
            }
            _ => match random.below(20) {
                0 => map.clear(),
                1..4 => map.retain(|key, _| key.len() > 2),
                _ => drop(map.drain().take(3).count()),
            },
        }
        check(&map, base, call);
        most = most.max(held() - base);
    }
    assert!(most > 270_000, "the limit was not reached: {most}");
}

/// A value owns at least the bytes that the allocator gave to it.
#[test]
fn owned_bytes_are_those_of_the_allocator() {
    fn check<T: OwnedBytes>(make: impl Fn() -> T) {
        let base = held();
        let value = std::hint::black_box(make());
        assert!(held() > base && held() - base <= value.owned_bytes() as i64);
    }
    check(|| (0..5000).map(|n| "a".repeat(n)).collect::<Vec<_>>());
    check(|| Box::new(1u64));
    check(|| Box::new("a".repeat(100)));
    check(|| (1u8, "a".repeat(100)));
    check(|| ("a".repeat(100), 1u8));
    check(|| Some(vec![1u64; 100]));
    check(|| "a".repeat(100).into_boxed_str());
    check(|| vec!["a".repeat(100), "b".repeat(33)].into_boxed_slice());
    check(|| ["a".repeat(100), "b".repeat(33)]);
    check(|| Arc::<str>::from("a".repeat(17)));
    check(|| (0..50).map(|n| Rc::<[u16]>::from(vec![1; n])).collect::<Vec<_>>());
    check(|| (Arc::new(1u8), Arc::new(1u128), Rc::new("a".repeat(100))));
    check(|| std::path::PathBuf::from("a".repeat(100)));
    check(|| std::borrow::Cow::<str>::Owned("a".repeat(100)));
}
