// Erased from crates/lru_replay/src/calls/steps.rt: do not edit.
//! Calls that copy a lent value, write a value, or join several results into one answer.

#[allow(unused_imports)]
use crate::rattle_std::prelude::*;

use crate::erased::schnellru::{Insertion, KeyHasher, Limiter, LruMap};
use crate::programs::lru_replay::Answer;
use crate::rattle_std::hash::Hash;

pub fn insert<K: Eq + Hash, V, L: Insertion<K, V, K>, S: KeyHasher<K>>(
    map: &mut LruMap<K, V, L, S>,
    key: K,
    value: V,
) -> Answer<K, V> {
    match map.insert(key, value) {
        Ok(there) => Answer::Flag(there),
        Err(_) => Answer::Memory,
    }
}

pub fn get_or_insert<K: Eq + Hash, V: Copy, L: Insertion<K, V, K>, S: KeyHasher<K>>(
    map: &mut LruMap<K, V, L, S>,
    key: K,
    value: V,
) -> Answer<K, V> {
    match map.ensure_newest(key, || value) {
        Ok(true) => Answer::Value(newest_value(map)),
        Ok(false) => Answer::Value(None),
        Err(_) => Answer::Memory,
    }
}

fn newest_value<K: Eq + Hash, V: Copy, L: Limiter<K, V>, S: KeyHasher<K>>(map: &LruMap<K, V, L, S>) -> Option<V> {
    match map.peek_newest() {
        Some((_, value)) => Some(*value),
        None => None,
    }
}

pub fn get<K: Eq + Hash, V: Copy, L: Limiter<K, V>, S: KeyHasher<K>>(
    map: &mut LruMap<K, V, L, S>,
    key: &K,
) -> Option<V> {
    match map.get(key) {
        Some(value) => Some(*value),
        None => None,
    }
}

pub fn write<K: Eq + Hash, V, L: Limiter<K, V>, S: KeyHasher<K>>(
    map: &mut LruMap<K, V, L, S>,
    key: &K,
    value: V,
) -> bool {
    match map.peek_mut(key) {
        Some(place) => {
            *place = value;
            true
        }
        None => false,
    }
}

pub fn get_by_hash<K: Eq + Hash, V: Copy, L: Limiter<K, V>, S: KeyHasher<K>>(
    map: &mut LruMap<K, V, L, S>,
    hash: u64,
    key: &K,
) -> Option<V> {
    let _len = map.len();
    match map.get_by_hash(hash, |other, _| key == other) {
        Some(value) => Some(*value),
        None => None,
    }
}

pub fn peek_by_hash<K: Eq + Hash, V: Copy, L: Limiter<K, V>, S: KeyHasher<K>>(
    map: &LruMap<K, V, L, S>,
    hash: u64,
    key: &K,
) -> Option<V> {
    let _len = map.len();
    match map.peek_by_hash(hash, |other, _| key == other) {
        Some(value) => Some(*value),
        None => None,
    }
}

pub fn peek_oldest<K: Copy + Eq + Hash, V: Copy, L: Limiter<K, V>, S: KeyHasher<K>>(
    map: &LruMap<K, V, L, S>,
) -> Option<(K, V)> {
    match map.peek_oldest() {
        Some((key, value)) => Some((*key, *value)),
        None => None,
    }
}

pub fn peek_newest<K: Copy + Eq + Hash, V: Copy, L: Limiter<K, V>, S: KeyHasher<K>>(
    map: &LruMap<K, V, L, S>,
) -> Option<(K, V)> {
    match map.peek_newest() {
        Some((key, value)) => Some((*key, *value)),
        None => None,
    }
}

pub fn stats<K: Eq + Hash, V, L: Insertion<K, V, K>, S: KeyHasher<K>>(map: &LruMap<K, V, L, S>) -> Answer<K, V> {
    Answer::Stats {
        len: map.len(),
        capacity: map.guaranteed_capacity(),
        memory: map.memory_usage(),
        report: map.move_report(),
    }
}
