// Erased from crates/schnellru_tests/src/callers.rt: do not edit.
//! Functions that call a map: the code of docs/CALLING.md.

#[allow(unused_imports)]
use crate::rattle_std::prelude::*;

use crate::erased::schnellru::{
    Both, ByCost, ByLength, ByMemoryUsage, Insertion, KeyHasher, Limiter, LruMap, MoveReport, RandomState,
    ReserveError, UnlimitedCompact, laws,
};
use crate::rattle_std::alloc::{AllocError, Global};
use crate::rattle_std::hash::Hash;

fn put(map: &mut LruMap<u64, u64>, key: u64, value: u64) -> Result<bool, AllocError> {
    let kept = map.insert(key, value)?;
    if kept {
        let found = map.peek(&key).copied();
        prove!(found == Some(value));
    }
    Ok(kept)
}

/// Does what `put` does, for any types, with a limiter that changes no value.
fn put_any<K: Eq + Hash, V, L: Insertion<K, V, K>>(
    map: &mut LruMap<K, V, L>,
    key: K,
    value: V,
) -> Result<bool, AllocError> {
    map.insert(key, value)
}

fn touch(map: &mut LruMap<u64, u64>, key: u64) -> bool {
    map.promote(&key)
}

fn overwrite(map: &mut LruMap<u64, u64>, key: u64, value: u64) -> bool {
    match map.get(&key) {
        Some(place) => {
            *place = value;
            true
        }
        None => false,
    }
}

/// Before and after the call, the value of each key of the map is what the closure returns for the key.
fn memo<F: Fn(u64) -> u64>(map: &mut LruMap<u64, u64>, answers: F, key: u64) -> Result<u64, AllocError> {
    laws::calls_evict_the_oldest::<u64, u64, u64, ByLength, RandomState>();
    if let Some(value) = map.get(&key) {
        return Ok(*value);
    }
    let value = answers(key);
    map.insert(key, value)?;
    Ok(value)
}

fn fetch<F: Fn(&String) -> String>(
    map: &mut LruMap<String, String>,
    key: String,
    load: F,
) -> Result<String, AllocError> {
    laws::calls_evict_the_oldest::<String, String, String, ByLength, RandomState>();
    if let Some(text) = map.get(&key) {
        return text.try_clone();
    }
    let text = load(&key);
    map.insert(key, text.try_clone()?)?;
    Ok(text)
}

fn reset(map: &mut LruMap<String, u64>) {
    let mut walk = map.iter_mut();
    'pairs: while walk.len() > 0 {
        let (_, value) = walk.lend_next();
        *value = 0;
    }
}

/// On average, growth moves each stored entry at most twice.
fn count_all(alloc: Global, texts: &[String]) -> Result<MoveReport, AllocError> {
    laws::runs_begin_with_maps::<String, u64, ByLength, RandomState>();
    laws::inserts_pay_for_moves::<String, u64, String, ByLength, RandomState>();
    let mut map: LruMap<String, u64> = LruMap::new(alloc, ByLength::new(1000), [1, 2, 3, 4], 40);
    for text in texts {
        map.insert(text.try_clone()?, 1)?;
    }
    Ok(map.move_report())
}

/// The table makes at most three insertions for each text, including the insertions of moved entries.
fn keep_all(alloc: Global, texts: &[String]) -> Result<LruMap<String, u64>, AllocError> {
    laws::runs_begin_with_maps::<String, u64, ByLength, RandomState>();
    laws::try_inserts_pay_for_moves::<String, u64, ByLength, RandomState>();
    let mut map: LruMap<String, u64> = LruMap::new(alloc, ByLength::new(1000), [1, 2, 3, 4], 40);
    for text in texts {
        let _ = map.try_insert(text.try_clone()?, 1);
    }
    Ok(map)
}

fn put_within(map: &mut LruMap<String, u64>, key: String, value: u64) -> Result<bool, AllocError> {
    laws::calls_keep_the_length::<String, u64, String, ByLength, RandomState>();
    map.insert(key, value)
}

/// Does what `put_within` does, under limits of the length and of the table's bytes.
fn put_within_both(
    map: &mut LruMap<String, u64, Both<ByMemoryUsage, ByLength>>,
    key: String,
    value: u64,
) -> Result<bool, AllocError> {
    laws::calls_keep_the_length::<String, u64, String, Both<ByMemoryUsage, ByLength>, RandomState>();
    laws::calls_keep_the_memory_usage::<String, u64, String, Both<ByMemoryUsage, ByLength>, RandomState>();
    map.insert(key, value)
}

fn exchange(
    map: &mut LruMap<String, String, ByCost>,
    old: &str,
    new: String,
    text: String,
) -> Result<bool, AllocError> {
    laws::calls_keep_sums::<String, String, String, ByCost, RandomState>();
    laws::calls_keep_the_budget::<String, String, ByCost, RandomState>();
    map.remove(&old);
    map.insert(new, text)
}

/// The insert and the update evict only the oldest entries, and pay for the entries that they move. Afterwards, no two
/// keys are equal.
fn put_and_update(map: &mut LruMap<String, u64>, first: String, second: String, value: u64) -> Result<(), AllocError> {
    laws::runs_keep_maps::<String, u64, String, ByLength, RandomState>();
    laws::runs_evict_the_oldest::<String, u64, String, ByLength, RandomState>();
    laws::runs_pay_for_moves::<String, u64, String, ByLength, RandomState>();
    let _len = map.len();
    map.insert(first, value)?;
    map.pop_newest();
    map.update(second, value);
    Ok(())
}

fn put_tightly(map: &mut LruMap<String, u64>, key: String, value: u64) -> Result<bool, AllocError> {
    laws::inserts_grow_little::<String, u64, String, ByLength, RandomState>();
    let _len = map.len();
    map.insert(key, value)
}

fn put_and_keep_half(
    map: &mut LruMap<String, u64, ByMemoryUsage>,
    key: String,
    value: u64,
) -> Result<bool, AllocError> {
    laws::growth_keeps_the_list::<String, u64, ByMemoryUsage, RandomState>();
    laws::refused_growth_keeps_half::<String, u64, ByMemoryUsage, RandomState>();
    map.insert(key, value)
}

/// Puts an entry of a new key into a full table. A search for the key first meets a bucket whose entry was removed. The
/// new entry fills that bucket, and all other entries stay.
fn put_into_deleted(map: &mut LruMap<String, u64>, key: String, value: u64) -> Result<bool, AllocError> {
    laws::deleted_buckets_serve::<String, u64, String, ByLength, RandomState>();
    map.insert(key, value)
}

fn forget(map: &mut LruMap<String, u64>, key: &str) -> Option<u64> {
    laws::removed_keys_are_absent::<String, u64, &str, ByLength, RandomState>();
    let _len = map.len();
    map.remove(&key)
}

fn shrink_within(map: &mut LruMap<String, u64>) -> Result<bool, AllocError> {
    laws::shrinks_pay_for_moves::<String, u64, ByLength, RandomState>();
    laws::shrinks_leave_a_tight_table::<String, u64, ByLength, RandomState>();
    map.shrink_to_fit()
}

fn resize(map: &mut LruMap<String, u64>, n: usize) -> bool {
    laws::shrinks_keep_the_list::<String, u64, ByLength, RandomState>();
    laws::reservations_keep_the_list::<String, u64, ByLength, RandomState>();
    laws::reservations_make_room::<String, u64, ByLength, RandomState>();
    let _ = map.shrink_to_fit();
    match map.try_reserve(n) {
        Ok(()) => true,
        Err(_) => false,
    }
}

fn usage_again(map: &LruMap<String, u64>, entry_bytes: usize) -> usize {
    laws::usages_are_their_budgets::<String, u64, ByLength, RandomState>();
    let _len = map.len();
    let bytes = map.memory_usage();
    LruMap::<String, u64>::memory_usage_for_memory_budget(bytes, entry_bytes)
}

fn put_and_show<F: FnMut(u64, u64)>(
    map: &mut LruMap<u64, u64>,
    key: u64,
    value: u64,
    callback: &mut F,
) -> Result<bool, AllocError> {
    laws::nothing_is_lost::<u64, u64, u64, ByLength, RandomState>();
    map.insert_with(key, value, callback)
}

fn trim_and_count(map: &mut LruMap<u64, u64>) -> usize {
    let _len = map.len();
    let mut count = 0usize;
    map.trim_with(&mut |_, _| count += 1);
    count
}

/// Adds an entry of a new key, or returns why the table has no growth left. Evicts nothing.
fn put_and_keep_all(map: &mut LruMap<u64, u64, UnlimitedCompact>, key: u64, value: u64) -> Result<(), ReserveError> {
    laws::inserts_with_room_are_exact::<u64, u64, u64, UnlimitedCompact, RandomState>();
    map.try_reserve(1)?;
    let _ = map.insert(key, value);
    Ok(())
}

fn map_of_length(alloc: Global, most: u32) -> LruMap<u64, u64> {
    laws::maps_keep_to_their_length::<u64, u64, RandomState>();
    LruMap::new(alloc, ByLength::new(most), [1, 2, 3, 4], 24)
}

fn put_newest(map: &mut LruMap<u64, u64>, key: u64, value: u64) -> Result<bool, AllocError> {
    laws::inserts_leave_the_newest::<u64, u64, RandomState>();
    laws::maps_keep_to_their_length::<u64, u64, RandomState>();
    map.insert(key, value)
}
