//! Each `new` makes hashers with random seeds: two hashers hash a key differently.

use jeerdurian::caches::{Loader, Memo, OrderedMap};
use jeerdurian::tenants::{ByteTenants, TenantCache, TenantPool};
use jeerdurian::{ByLength, Costed, LruMap, OwnedBytes};
use std::cell::Cell;
use std::hash::{Hash, Hasher};

thread_local! {
    /// The last hash.
    static HASH: Cell<u64> = const { Cell::new(0) };
}

/// A key that stores its last hash in `HASH`.
#[derive(PartialEq, Eq)]
struct Key;

impl Hash for Key {
    fn hash<H: Hasher>(&self, state: &mut H) {
        state.write_u64(7);
        HASH.set(state.finish());
    }
}

impl OwnedBytes for Key {
    fn owned_bytes(&self) -> u64 {
        0
    }
}

impl Costed for Key {
    fn cost(&self) -> u64 {
        1
    }
}

fn hash_of(call: &impl Fn() -> bool) -> u64 {
    HASH.set(0);
    assert!(call());
    HASH.get()
}

fn is_seeded(call: impl Fn() -> bool) {
    let hashes = [hash_of(&call), hash_of(&call)];
    assert!(hashes[0] != hashes[1] && !hashes.contains(&0));
}

#[test]
fn each_new_takes_random_seeds() {
    is_seeded(|| LruMap::new(ByLength::new(9)).insert(Key, 1));
    is_seeded(|| LruMap::with_memory_budget(9000).insert(Key, 1));
    is_seeded(|| Memo::new(ByLength::new(9), |_: &Key| 1).answer(Key) == 1);
    is_seeded(|| Loader::new(ByLength::new(9), |_: &Key| Ok::<_, ()>(1)).load(Key) == Ok(1));
    is_seeded(|| OrderedMap::new().insert(Key, 1) == Ok(None));
    is_seeded(|| TenantCache::<Key, u64, u64>::new().open(Key, 1) == Ok(()));
    is_seeded(|| TenantPool::<Key, u64, u64>::new(9).open(Key, 1) == Ok(()));
    is_seeded(|| ByteTenants::<Key, u64, u64>::new(9000).open(Key, 1) == Ok(()));
}

/// A cache of tenants hashes as a map with the same seeds does.
#[test]
fn tenants_take_the_seeds() {
    for seed in [[0; 4], [1, 2, 3, 4]] {
        let hash = hash_of(&|| LruMap::with_seed(ByLength::new(9), seed).insert(Key, 1));
        assert_eq!(hash_of(&|| TenantCache::<Key, u64, u64>::with_seed(seed).open(Key, 1) == Ok(())), hash);
    }
}
