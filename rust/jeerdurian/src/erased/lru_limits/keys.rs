// Erased from crates/lru_limits/src/keys.rt: do not edit.
//! Values that look up a key, and the hash of a key.

#[allow(unused_imports)]
use crate::rattle_std::prelude::*;

use crate::rattle_std::hash::{BuildHasher, Hash};

/// A value that looks up a key. All keys that the value names are equal, and the value has their hash.
///
/// Every key type implements `LookupKey` for its own keys, and `&str` implements it for `String` keys. In your own
/// impl, `names` defines which key a value names, and `is_key` computes `names`. Prove two laws (`IsLookup`). For the
/// law `writes`, note that the derived `Hash` of a struct with one field writes what the field writes.
pub trait LookupKey<K: Eq + Hash>: Hash {
    /// Returns whether the value names this key.
    fn is_key(&self, key: &K) -> bool;
}

impl<K: Eq + Hash> LookupKey<K> for K {
    #[inline]
    fn is_key(&self, key: &K) -> bool {
        *self == *key
    }
}

impl LookupKey<String> for &str {
    #[inline]
    fn is_key(&self, key: &String) -> bool {
        *self == key.as_str()
    }
}

/// Hashes keys, and values that name keys. Every `BuildHasher` is a `KeyHasher`.
pub trait KeyHasher<K: Eq + Hash>: BuildHasher {
    /// Returns the hash of the key that the value names.
    fn hash_named<Q: LookupKey<K>>(&self, key: &Q) -> u64;
}

impl<K: Eq + Hash, S: BuildHasher> KeyHasher<K> for S {
    #[inline]
    fn hash_named<Q: LookupKey<K>>(&self, key: &Q) -> u64 {
        self.hash_by(key)
    }
}
