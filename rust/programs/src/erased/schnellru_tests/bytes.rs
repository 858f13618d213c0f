// Erased from crates/schnellru_tests/src/bytes.rt: do not edit.
//! A cache of texts that takes at most 200 MiB, by the law `calls_keep_the_bytes`.

#[allow(unused_imports)]
use crate::rattle_std::prelude::*;

use crate::erased::lru_model::Updated;
use crate::erased::schnellru::{ByBytes, LruMap, RandomState, laws};
use crate::rattle_std::alloc::{AllocError, Global};

fn cache_of_texts(alloc: Global) -> LruMap<String, String, ByBytes> {
    laws::calls_keep_the_bytes::<String, String, RandomState>();
    LruMap::with_limiter(alloc, ByBytes::new(200 << 20))
}

/// Whatever the calls return, the cache takes at most its limit.
fn change(
    map: &mut LruMap<String, String, ByBytes>,
    key: String,
    text: String,
    other: String,
    new: String,
    old: &str,
) -> Result<bool, AllocError> {
    laws::calls_keep_the_bytes::<String, String, RandomState>();
    laws::runs_keep_the_bytes::<String, String, RandomState>();
    let _len = map.len();
    let kept = map.insert(key, text);
    map.update(other, new);
    map.remove(&old);
    let _ = map.shrink_to_fit();
    kept
}

/// Shrinks the table, and sets a limiter that counts the new table. The cache still takes at most its limit.
fn shrink(map: &mut LruMap<String, String, ByBytes>) {
    laws::calls_keep_the_bytes::<String, String, RandomState>();
    let _len = map.len();
    let _ = map.shrink_to_fit();
    let limiter = map.limiter().with_table(map.memory_usage() as u64);
    map.set_limiter(limiter);
}
