// The calls of `lru` on the crate named `krate`. `calls.rs` includes this file for the crate and for its door.
use super::{Cache, Call, Key, State, Value, both_ends, shown, written};
use krate::LruCache;

pub type Entries = LruCache<Key, Value, State>;
pub type Texts = LruCache<String, Value, State>;
pub type Bytes = LruCache<Box<[u8]>, Value, State>;

fn make<K: std::hash::Hash + Eq>(capacity: usize) -> LruCache<K, Value, State> {
    match capacity {
        usize::MAX => LruCache::unbounded_with_hasher(State::default()),
        _ => LruCache::with_hasher(capacity, State::default()),
    }
}

impl Cache for Entries {
    const KINDS: u32 = 22;
    const SHRINKING: u32 = 6;

    fn make(capacity: usize) -> Self {
        make(capacity)
    }

    fn call(&mut self, Call(kind, id, n): Call) -> String {
        let key = Key(id, n);
        match kind {
            0..=2 => shown(self.put(key, Value(n))),
            3 => shown(self.push(key, Value(n))),
            4 => shown(self.get_or_insert(key, || Value(n))),
            5 => shown(self.get(&key)),
            6 => written(self.get_mut(&key), n),
            7 => shown(self.peek(&key)),
            8 => written(self.peek_mut(&key), n),
            9 => shown(self.peek_lru()),
            10 => shown(self.contains(&key)),
            11 => shown((self.len(), self.is_empty(), self.cap())),
            12 => {
                let mut it = self.iter();
                shown((it.size_hint(), both_ends(it.len(), n, |front| if front { it.next() } else { it.next_back() })))
            }
            13 => {
                let mut it = self.iter_mut();
                let lent = both_ends(it.len(), n, |front| if front { it.next() } else { it.next_back() });
                lent.into_iter().flatten().map(|(key, value)| shown(key) + &written(Some(value), n % 7)).collect()
            }
            14 => shown((self.iter().clone().count(), (&*self).into_iter().map(|(_, value)| value.0).max())),
            15 => shown(self.into_iter().map(|(_, value)| value.0 += 1).count()),
            16 => shown(self.pop(&key)),
            17 => shown(self.pop_entry(&key)),
            18 => shown(self.pop_lru()),
            19 => shown((0..n % 3).map(|_| self.pop_lru()).collect::<Vec<_>>()),
            20 => shown(self.resize(if n % 16 == 0 { usize::MAX } else { id as usize % 24 })),
            _ => shown((n % 8 == 0).then(|| self.clear())),
        }
    }

    fn order(&self) -> String {
        shown((self.len(), self.iter().collect::<Vec<_>>()))
    }
}

macro_rules! borrowed {
    ($cache:ty, |$n:ident| $key:expr, $borrowed:expr) => {
        impl Cache for $cache {
            const KINDS: u32 = 10;
            const SHRINKING: u32 = 2;

            fn make(capacity: usize) -> Self {
                make(capacity)
            }

            fn call(&mut self, Call(kind, $n, n): Call) -> String {
                match kind {
                    0..=3 => shown(self.put($key, Value(n))),
                    4 => shown(self.get($borrowed)),
                    5 => written(self.get_mut($borrowed), n),
                    6 => shown((self.peek($borrowed), self.contains($borrowed))),
                    7 => written(self.peek_mut($borrowed), n),
                    8 => shown(self.pop($borrowed)),
                    _ => shown(self.pop_entry($borrowed)),
                }
            }

            fn order(&self) -> String {
                shown(self.iter().collect::<Vec<_>>())
            }
        }
    };
}

borrowed!(Texts, |n| n.to_string(), n.to_string().as_str());
borrowed!(Bytes, |n| n.to_string().into_bytes().into(), n.to_string().as_bytes());
