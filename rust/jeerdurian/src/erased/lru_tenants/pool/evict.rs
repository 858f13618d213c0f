// Erased from crates/lru_tenants/src/pool/evict.rt: do not edit.
#[allow(unused_imports)]
use crate::rattle_std::prelude::*;

use crate::erased::lru_limits::Budgeted;
use crate::erased::lru_tenants::pool::part::{Part, drop_oldest, excess};
use crate::erased::schnellru::{KeyHasher, LruMap, Unlimited};
use crate::rattle_std::hash::Hash;

// Returns the greatest excess of a tenant's cost over its share. If the excess is above 0, also returns the hash of the
// tenant's name. Does not lend the name itself, because the caller changes the map.
fn furthest<N: Eq + Hash, K: Eq + Hash, V, L: Budgeted<K, V>, S: KeyHasher<K>, H: KeyHasher<N>>(
    tenants: &LruMap<N, Part<K, V, L, S>, Unlimited, H>,
) -> (u64, u64) {
    let mut most = 0;
    let mut hash = 0;
    for (name, own) in tenants.iter() {
        let above = excess(own);
        if above > most {
            most = above;
            hash = tenants.hasher().hash_named(name);
        }
    }
    (most, hash)
}

// Returns `None` only in Rust, where hashes and costs may be wrong.
fn evict<N: Eq + Hash, K: Eq + Hash, V, L: Budgeted<K, V>, S: KeyHasher<K>, H: KeyHasher<N>>(
    tenants: &mut LruMap<N, Part<K, V, L, S>, Unlimited, H>,
) -> Option<u64> {
    let (most, hash) = furthest(tenants);
    let _len = tenants.len();
    let own = tenants.peek_by_hash_mut(hash, |_, own| excess(own) == most)?;
    drop_oldest(own)
}

pub(super) fn settle<N: Eq + Hash, K: Eq + Hash, V, L: Budgeted<K, V>, S: KeyHasher<K>, H: KeyHasher<N>>(
    tenants: &mut LruMap<N, Part<K, V, L, S>, Unlimited, H>,
    mut total: u128,
    limit: u64,
) -> u128 {
    'evictions: while total > limit as u128 {
        let Some(freed) = evict(tenants) else {
            return total;
        };
        total -= freed as u128;
    }
    total
}
