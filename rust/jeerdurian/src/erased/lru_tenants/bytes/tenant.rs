// Erased from crates/lru_tenants/src/bytes/tenant.rt: do not edit.
#[allow(unused_imports)]
use crate::rattle_std::prelude::*;

use crate::erased::schnellru::{ByBytes, KeyHasher, LookupKey, LruMap, OwnedBytes, laws};
use crate::rattle_std::alloc::{AllocError, Global};
use crate::rattle_std::hash::Hash;

/// A tenant's map. The map takes at most the tenant's limit, so the cache counts this limit instead of the map's bytes.

pub(super) struct ByteTenant<K: Eq + Hash + OwnedBytes, V: OwnedBytes, S: KeyHasher<K>> {
    pub(super) map: LruMap<K, V, ByBytes, S>,
}

impl<K: Eq + Hash + OwnedBytes, V: OwnedBytes, S: KeyHasher<K>> OwnedBytes for ByteTenant<K, V, S> {
    fn owned_bytes(&self) -> u64 {
        self.map.limiter().limit()
    }
}

impl<K: Eq + Hash + OwnedBytes, V: OwnedBytes, S: KeyHasher<K>> ByteTenant<K, V, S> {
    pub(super) fn new(alloc: Global, hasher: S, limit: u64) -> Self {
        laws::calls_keep_the_bytes::<K, V, S>();
        ByteTenant { map: LruMap::with_limiter_and_hasher(alloc, ByBytes::new(limit), hasher) }
    }

    pub(super) fn insert(&mut self, key: K, value: V) -> Result<bool, AllocError> {
        laws::calls_keep_the_bytes::<K, V, S>();
        let _len = self.map.len();
        self.map.insert(key, value)
    }

    pub(super) fn get<Q: LookupKey<K>>(&mut self, key: &Q) -> Option<&V> {
        match self.map.get(key) {
            Some(value) => Some(&*value),
            None => None,
        }
    }

    pub(super) fn remove<Q: LookupKey<K>>(&mut self, key: &Q) -> Option<V> {
        laws::calls_keep_the_bytes::<K, V, S>();
        let _len = self.map.len();
        self.map.remove(key)
    }
}
