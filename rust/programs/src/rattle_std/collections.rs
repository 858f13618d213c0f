//! Maps.

use super::alloc::{AllocError, Global};
use core::borrow::Borrow;
use std::collections::btree_map;

pub use crate::library::collections::{BTreeSet, HashMap};

pub mod hash_map {
    pub use crate::library::collections::hash_map::Keys;

    use super::super::runtime::HostRuntime;
    use super::AllocError;
    use core::hash::{BuildHasher, Hasher};
    use std::hash::DefaultHasher;

    /// Rust's `RandomState`, which can be copied.
    #[derive(Clone, Copy, Debug)]
    pub struct RandomState(u64);

    impl RandomState {
        pub fn new(_: &HostRuntime) -> Result<Self, AllocError> {
            Ok(RandomState(std::hash::RandomState::new().build_hasher().finish()))
        }
    }

    impl BuildHasher for RandomState {
        type Hasher = DefaultHasher;

        fn build_hasher(&self) -> DefaultHasher {
            let mut hasher = DefaultHasher::new();
            hasher.write_u64(self.0);
            hasher
        }
    }
}

/// Rust's `BTreeMap`.
pub struct BTreeMap<K, V>(std::collections::BTreeMap<K, V>);

impl<K: Ord, V> BTreeMap<K, V> {
    pub fn new(_: Global) -> Self {
        BTreeMap(std::collections::BTreeMap::new())
    }

    /// Without memory the program ends, where Rattle's `insert` returns an error.
    pub fn insert(&mut self, key: K, value: V) -> Result<Option<V>, AllocError> {
        Ok(self.0.insert(key, value))
    }

    pub fn get_mut<Q: Ord + ?Sized>(&mut self, key: &Q) -> Option<&mut V>
    where
        K: Borrow<Q>,
    {
        self.0.get_mut(key)
    }

    pub fn remove(&mut self, key: &K) -> Option<V> {
        self.0.remove(key)
    }

    pub fn last_key_value(&self) -> Option<(&K, &V)> {
        self.0.last_key_value()
    }
}

impl<'a, K, V> IntoIterator for &'a BTreeMap<K, V> {
    type Item = (&'a K, &'a V);
    type IntoIter = btree_map::Iter<'a, K, V>;

    fn into_iter(self) -> Self::IntoIter {
        self.0.iter()
    }
}
