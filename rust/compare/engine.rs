// One of the two crates, named `krate`, behind a common interface. `calls.rs` includes this file for each.
use super::{Call, Engine, Hasher, Seen, reserved};
use krate::{ByLength, ByMemoryUsage, Limiter, LruMap, Unlimited, UnlimitedCompact};

/// A limiter by the sum of the values, by the length and by the bytes, which logs its callbacks. `LINK` is the width of
/// its links.
pub struct Logging<const LINK: usize> {
    sum: u64,
    most: u64,
    length: usize,
    log: std::cell::RefCell<Vec<String>>,
}

impl<const LINK: usize> Logging<LINK> {
    fn new(most: u64, length: usize) -> Self {
        Logging { sum: 0, most, length, log: Default::default() }
    }

    fn note(&self, text: String) {
        self.log.borrow_mut().push(text);
    }
}

macro_rules! logging {
    ($link:expr, $t:ty) => {
        impl Limiter<u64, u64> for Logging<$link> {
            type KeyToInsert<'a> = u64;
            type LinkType = $t;

            fn is_over_the_limit(&self, length: usize) -> bool {
                self.note(format!("over {length}"));
                self.sum > self.most || length > self.length
            }

            fn on_insert(&mut self, length: usize, key: u64, value: u64) -> Option<(u64, u64)> {
                self.note(format!("insert {length} {key} {value}"));
                if value > self.most {
                    return None;
                }
                self.sum += value;
                Some((key, value))
            }

            fn on_replace(&mut self, length: usize, k: &mut u64, new: u64, old: &mut u64, value: &mut u64) -> bool {
                self.note(format!("replace {length} {k} {new} {old} {value}"));
                if *value > self.most {
                    return false;
                }
                self.sum = self.sum - *old + *value;
                true
            }

            fn on_removed(&mut self, key: &mut u64, value: &mut u64) {
                self.note(format!("removed {key} {value}"));
                self.sum -= *value;
            }

            fn on_cleared(&mut self) {
                self.note("cleared".into());
                self.sum = 0;
            }

            fn on_grow(&mut self, bytes: usize) -> bool {
                self.note(format!("grow {bytes}"));
                bytes < self.most as usize * 8
            }
        }
    };
}

logging!(8, u8);
logging!(16, u16);
logging!(64, usize);

/// What the calls need of a limiter beyond the crate's trait.
pub trait Noted {
    fn take(&mut self) -> Vec<String> {
        Vec::new()
    }

    fn lower(&mut self, _: u64) {}
}

impl Noted for ByLength {
    fn lower(&mut self, n: u64) {
        *self = ByLength::new(1 + n as u32 % (2 * self.max_length() + 8));
    }
}

impl Noted for ByMemoryUsage {}
impl Noted for Unlimited {}
impl Noted for UnlimitedCompact {}

impl<const LINK: usize> Noted for Logging<LINK> {
    fn take(&mut self) -> Vec<String> {
        std::mem::take(self.log.get_mut())
    }

    fn lower(&mut self, n: u64) {
        self.most = 1 + n % (self.most + 300);
    }
}

fn shown(x: impl std::fmt::Debug) -> String {
    format!("{x:?}")
}

/// Takes items from both ends of an iterator; the bits of `v` say from which end.
fn both_ends<I: ExactSizeIterator + DoubleEndedIterator>(mut it: I, v: u64) -> Vec<I::Item> {
    let mut taken = Vec::new();
    while it.len() > 0 {
        taken.extend(if (v >> (it.len() % 64)) & 1 == 0 { it.next() } else { it.next_back() });
    }
    taken
}

impl<L> Engine for LruMap<u64, u64, L, Hasher>
where
    L: Noted + for<'a> Limiter<u64, u64, KeyToInsert<'a> = u64>,
{
    fn call(&mut self, Call(kind, k, v): Call) -> String {
        match kind {
            0..=29 => shown(self.insert(k, v)),
            30..=44 => shown(self.get(&k)),
            45..=54 => shown(self.peek(&k)),
            55..=59 => shown(self.peek_mut(&k)),
            60..=74 => shown(self.remove(&k)),
            75..=81 => shown(self.get_or_insert(k, || v)),
            82..=84 => shown(self.get_or_insert_fallible(k, || if v % 3 == 0 { Err(v) } else { Ok(v) })),
            85..=86 => shown(self.pop_oldest()),
            87 => shown(self.pop_newest()),
            88 => shown((self.peek_newest(), self.peek_oldest())),
            89 => shown(self.iter().rev().collect::<Vec<_>>()),
            90 => shown(both_ends(self.iter(), v)),
            91 => shown(both_ends(self.iter_mut(), v)),
            92 if v % 8 == 0 => shown(self.drain().take(v as usize % 5).collect::<Vec<_>>()),
            93 if v % 16 == 0 => shown(self.clear()),
            94 if v % 4 == 0 => shown(self.limiter_mut().lower(k)),
            95 => shown(self.get_by_hash(std::hash::BuildHasher::hash_one(&Hasher::default(), k), |a, _| *a == k)),
            96 => shown(Self::memory_usage_for_memory_budget(v as usize * 37)),
            _ => match reserved(Call(kind, k, v)) {
                Some(n) => shown(self.reserve_or_panic(n)),
                None => shown((self.len(), self.is_empty())),
            },
        }
    }

    fn seen(&mut self, answer: String, hashes: u64) -> Seen {
        self.assert_check_internal_state();
        Seen {
            answer,
            order: self.iter().map(|(k, v)| (*k, *v)).collect(),
            memory: self.memory_usage(),
            capacity: self.guaranteed_capacity(),
            hashes,
            log: self.limiter_mut().take(),
        }
    }
}

/// Makes an empty map under limiter `which`, whose limit grows with `n`.
pub fn make(which: usize, n: u64) -> Box<dyn Engine> {
    let s = Hasher::default();
    let length = n as usize;
    match which {
        0 => Box::new(LruMap::<u64, u64, _, _>::with_hasher(ByLength::new(n as u32), s)),
        1 => Box::new(LruMap::<u64, u64, _, _>::with_hasher(ByMemoryUsage::new(length * 33), s)),
        2 => Box::new(LruMap::<u64, u64, _, _>::with_hasher(Unlimited, s)),
        3 => Box::new(LruMap::<u64, u64, _, _>::with_hasher(UnlimitedCompact, s)),
        4 => Box::new(LruMap::with_hasher(Logging::<8>::new(1 << 40, length), s)),
        5 => Box::new(LruMap::with_hasher(Logging::<16>::new(40 * n + 9, length), s)),
        _ => Box::new(LruMap::with_hasher(Logging::<64>::new(12 * n + 9, length), s)),
    }
}
