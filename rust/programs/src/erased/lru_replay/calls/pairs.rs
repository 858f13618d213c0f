// Erased from crates/lru_replay/src/calls/pairs.rt: do not edit.
//! Calls that return pairs. Each call requests the memory for the pairs before it changes the map.

#[allow(unused_imports)]
use crate::rattle_std::prelude::*;

use crate::erased::schnellru::{Insertion, KeyHasher, Limiter, LruMap};
use crate::programs::lru_replay::Answer;
use crate::rattle_std::alloc::Global;
use crate::rattle_std::hash::Hash;

pub fn list<K: Copy + Eq + Hash, V: Copy, L: Insertion<K, V, K>, S: KeyHasher<K>>(
    alloc: Global,
    map: &LruMap<K, V, L, S>,
) -> Answer<K, V> {
    let Ok(mut pairs) = Vec::with_capacity(alloc, map.len()) else {
        return Answer::Memory;
    };
    for (key, value) in map.iter() {
        pairs.push_reserved((*key, *value));
    }
    Answer::Pairs(pairs)
}

pub fn insert_with<K: Eq + Hash, V, L: Insertion<K, V, K>, S: KeyHasher<K>>(
    map: &mut LruMap<K, V, L, S>,
    key: K,
    value: V,
) -> Answer<K, V> {
    match map.insert_and_keep(key, value) {
        Ok((done, out)) => Answer::Given { done, out },
        Err(_) => Answer::Memory,
    }
}

pub fn drain_pairs<K: Eq + Hash, V, L: Insertion<K, V, K>, S: KeyHasher<K>>(
    alloc: Global,
    map: &mut LruMap<K, V, L, S>,
    front: usize,
    back: usize,
) -> Answer<K, V> {
    let newest = front.min(map.len());
    let oldest = back.min(map.len() - newest);
    let Ok(mut pairs) = Vec::with_capacity(alloc, newest + oldest) else {
        return Answer::Memory;
    };
    take_newest(map, newest, &mut pairs);
    take_oldest(map, oldest, &mut pairs);
    map.clear();
    Answer::Pairs(pairs)
}

fn take_newest<K: Eq + Hash, V, L: Limiter<K, V>, S: KeyHasher<K>>(
    map: &mut LruMap<K, V, L, S>,
    count: usize,
    pairs: &mut Vec<(K, V)>,
) {
    for _ in 0..count {
        add(pairs, map.pop_newest());
    }
}

fn take_oldest<K: Eq + Hash, V, L: Limiter<K, V>, S: KeyHasher<K>>(
    map: &mut LruMap<K, V, L, S>,
    count: usize,
    pairs: &mut Vec<(K, V)>,
) {
    for _ in 0..count {
        add(pairs, map.pop_oldest());
    }
}

fn add<K, V>(pairs: &mut Vec<(K, V)>, pair: Option<(K, V)>) {
    if let Some(pair) = pair {
        pairs.push_reserved(pair);
    }
}
