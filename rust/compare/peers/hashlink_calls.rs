// The calls of `hashlink` on the crate named `krate`. `calls.rs` includes this file for the crate and for its door.
use super::{Cache, Call, Key, State, Value, both_ends, shown, written};
use krate::LruCache;
use krate::linked_hash_map::RawEntryMut;
use krate::lru_cache::{Entry, OccupiedEntry, VacantEntry};
use std::hash::BuildHasher;

pub type Entries = LruCache<Key, Value, State>;
pub type Texts = LruCache<String, Value, State>;

fn occupied(mut entry: OccupiedEntry<Key, Value>, n: u32) -> String {
    match n % 10 {
        0 => shown(entry.insert(Value(n))),
        1 => shown(entry.insert_entry(Value(n))),
        2 => shown(entry.replace_entry(Value(n))),
        3 => shown(entry.replace_key()),
        4 => shown(entry.to_front()),
        5 => shown(entry.to_back()),
        6 => shown(entry.get()) + &written(Some(entry.get_mut()), n) + &shown(entry.key()),
        7 => written(Some(entry.into_mut()), n),
        8 => shown(entry.remove()),
        _ => shown(entry.remove_entry()),
    }
}

fn vacant(entry: VacantEntry<Key, Value, State>, n: u32) -> String {
    match n % 3 {
        0 => shown(entry.into_key()),
        1 => shown(entry.key()) + &written(Some(entry.insert(Value(n))), n / 2),
        _ => shown(entry.insert(Value(n))),
    }
}

fn raw(entry: RawEntryMut<Key, Value, State>, id: u32, n: u32) -> String {
    match entry {
        RawEntryMut::Vacant(entry) if n % 3 == 0 => shown(entry.insert(Key(id, n), Value(n))),
        RawEntryMut::Occupied(mut entry) if n % 3 == 0 => match n % 7 {
            0 => shown(entry.to_front()),
            1 => shown(entry.to_back()),
            2 => shown(entry.get()) + &written(Some(entry.get_mut()), n) + &shown(entry.key()),
            3 => written(Some(entry.into_mut()), n),
            4 => shown(entry.remove()),
            5 => shown(entry.remove_entry()),
            _ => shown(entry),
        },
        entry if n % 3 == 1 => shown(entry.or_insert(Key(id, n), Value(n))),
        entry => shown(entry.or_insert_with(|| (Key(id, n), Value(n)))),
    }
}

/// Shows an iterator after some steps, and then what it returns.
macro_rules! walked {
    ($it:expr, $n:expr) => {{
        let mut it = $it;
        let rest = shown((it.nth($n as usize % 3), it.next_back(), it.size_hint())) + &shown(&it);
        rest + &shown(both_ends(it.size_hint().0, $n, |front| if front { it.next() } else { it.next_back() }))
    }};
}

impl Cache for Entries {
    const KINDS: u32 = 28;
    const SHRINKING: u32 = 7;

    fn make(capacity: usize) -> Self {
        LruCache::with_hasher(capacity, State::default())
    }

    fn call(&mut self, Call(kind, id, n): Call) -> String {
        let key = Key(id, n);
        match kind {
            0..=4 => shown(self.insert(key, Value(n))),
            5 => shown(self.get(&id)),
            6 => written(self.get_mut(&key), n),
            7 => shown(self.peek(&id)),
            8 => written(self.peek_mut(&id), n),
            9 => shown(self.contains_key(&id)),
            10 => shown(self.entry(key).or_insert(Value(n))),
            11 => shown(self.entry(key).or_insert_with(|| Value(n))),
            12 => shown(self.entry(key).and_modify(|value| value.0 = n).or_insert(Value(n))),
            13 => shown(self.entry(key)) + &shown(self.entry(Key(id + 1, n)).key()),
            14 => raw(self.raw_entry_mut().from_key(&id), id, n),
            15 => raw(self.raw_entry_mut().from_hash(State::default().hash_one(id), |key| key.0 == id), id, n),
            16 => shown((self.len(), self.is_empty(), self.capacity(), &self)),
            17 => walked!(self.iter(), n),
            18 => walked!(self.iter_mut(), n),
            19 => shown(self.extend((0..n % 4).map(|it| (Key(id + it, n), Value(it))))),
            20 => shown(self.into_iter().map(|(_, value)| value.0 += 1).count()),
            21 => match self.entry(key) {
                Entry::Occupied(entry) => occupied(entry, n),
                Entry::Vacant(entry) => vacant(entry, n),
            },
            22 => shown(self.remove(&id)),
            23 => shown(self.remove_entry(&id)),
            24 => shown((self.remove_lru(), self.remove_lru())),
            25 if n % 4 == 0 => shown(self.set_capacity(if n % 16 == 0 { usize::MAX } else { id as usize % 24 })),
            26 if n % 8 == 0 => shown(self.clear()),
            27 if n % 8 == 0 => walked!(self.drain(), n),
            _ => walked!(self.clone().into_iter(), n),
        }
    }

    fn order(&self) -> String {
        shown((self.len(), self.iter().collect::<Vec<_>>()))
    }
}

impl Cache for Texts {
    const KINDS: u32 = 10;
    const SHRINKING: u32 = 2;

    fn make(capacity: usize) -> Self {
        LruCache::with_hasher(capacity, State::default())
    }

    fn call(&mut self, Call(kind, id, n): Call) -> String {
        let text = id.to_string();
        match kind {
            0..=3 => shown(self.insert(text, Value(n))),
            4 => shown(self.get(text.as_str())),
            5 => written(self.get_mut(text.as_str()), n),
            6 => shown((self.peek(text.as_str()), self.len())),
            7 => written(self.peek_mut(text.as_str()), n) + &shown(self.contains_key(text.as_str())),
            8 => shown(self.remove(text.as_str())),
            _ => shown(self.remove_entry(text.as_str())),
        }
    }

    fn order(&self) -> String {
        shown(self.iter().collect::<Vec<_>>())
    }
}
