// Erased from crates/schnellru/src/map/insert_and_keep.rt: do not edit.
#[allow(unused_imports)]
use crate::rattle_std::prelude::*;

use crate::erased::lru_limits::{Insertion, KeyHasher, Limiter, LookupKey};
use crate::erased::lru_model::laws::inserts_pass_few;
use crate::erased::schnellru::map::LruMap;
use crate::rattle_std::alloc::AllocError;
use crate::rattle_std::hash::Hash;

impl<K: Eq + Hash, V, L: Limiter<K, V>, S: KeyHasher<K>> LruMap<K, V, L, S> {
    /// Does what `insert_with` does, but returns the entries with the result instead of passing them to a callback.
    ///
    /// Cost: as `insert`, and memory for one entry more than the map contains, even if nothing is evicted. If the map
    /// is large, call `insert_with`.
    ///
    /// # Errors
    ///
    /// The allocation for the returned entries failed. The map has not changed, and the key and the value are dropped.
    pub fn insert_and_keep<I: LookupKey<K>>(
        &mut self,
        key: I,
        value: V,
    ) -> Result<(Result<bool, AllocError>, Vec<(K, V)>), AllocError>
    where
        L: Insertion<K, V, I>,
    {
        inserts_pass_few::<K, V, I, L, S>();
        let mut left = Vec::with_capacity(self.alloc, self.len() + 1)?;
        let done = self.insert_with(key, value, &mut |key, value| keep(&mut left, (key, value)));
        Ok((done, left))
    }
}

fn keep<K, V>(pairs: &mut Vec<(K, V)>, pair: (K, V)) {
    if pairs.len() < pairs.capacity() {
        pairs.push_reserved(pair);
    }
}
