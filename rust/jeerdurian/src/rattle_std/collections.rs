//! Hash maps whose growth may fail, over Rust's `HashMap`; and a sorted set and a sorted map over Rust's, which abort
//! if memory runs out.

use super::alloc::{AllocError, Global};
use core::borrow::Borrow;
use core::hash::{BuildHasher, Hash};
use core::marker::PhantomData;
use std::collections::hash_map as rust;

/// Rust's `BTreeSet`.
pub struct BTreeSet<T>(std::collections::BTreeSet<T>);

impl<T: Ord> BTreeSet<T> {
    pub fn new(_: Global) -> Self {
        BTreeSet(Default::default())
    }

    pub fn len(&self) -> usize {
        self.0.len()
    }

    pub fn insert(&mut self, item: T) -> Result<bool, AllocError> {
        Ok(self.0.insert(item))
    }

    pub fn remove(&mut self, item: &T) -> bool {
        self.0.remove(item)
    }

    pub fn pop_last(&mut self) -> Option<T> {
        self.0.pop_last()
    }
}

/// Rust's `BTreeMap`.
pub struct BTreeMap<K, V>(std::collections::BTreeMap<K, V>);

impl<K: Ord, V> BTreeMap<K, V> {
    pub fn new(_: Global) -> Self {
        BTreeMap(Default::default())
    }

    pub fn insert(&mut self, key: K, value: V) -> Result<Option<V>, AllocError> {
        Ok(self.0.insert(key, value))
    }

    pub fn remove(&mut self, key: &K) -> Option<V> {
        self.0.remove(key)
    }

    pub fn last_key_value(&self) -> Option<(&K, &V)> {
        self.0.last_key_value()
    }
}

/// Rust's `HashMap`. Its keys need only an `==`.
pub struct HashMap<K, V, S = rust::RandomState, A = Global>(rust::HashMap<Key<K>, V, S>, PhantomData<A>);

/// A key. Rust's map needs an `Eq`. If the `==` of a key is no equality, answers may be wrong, but memory stays safe.
#[derive(Hash, PartialEq)]
struct Key<K>(K);

impl<K: PartialEq> Eq for Key<K> {}

/// A look-up key. Its type is not `Key`, because each value can also be borrowed as itself.
#[derive(Hash, PartialEq)]
#[repr(transparent)]
struct Named<Q: ?Sized>(Q);

impl<Q: PartialEq + ?Sized> Eq for Named<Q> {}

impl<Q: ?Sized> Named<Q> {
    fn of(name: &Q) -> &Named<Q> {
        // SAFETY: `Named` has the layout of its field.
        unsafe { &*(name as *const Q as *const Named<Q>) }
    }
}

impl<K: Borrow<Q>, Q: ?Sized> Borrow<Named<Q>> for Key<K> {
    fn borrow(&self) -> &Named<Q> {
        Named::of(self.0.borrow())
    }
}

impl<K, V> HashMap<K, V> {
    /// An empty map. Its hashes are random; in Rattle they are known.
    pub fn new(_: Global) -> Self {
        HashMap(rust::HashMap::default(), PhantomData)
    }
}

impl<K, V, S, A> HashMap<K, V, S, A> {
    pub fn with_hasher(_: Global, hasher: S) -> Self {
        HashMap(rust::HashMap::with_hasher(hasher), PhantomData)
    }

    pub fn len(&self) -> usize {
        self.0.len()
    }

    pub fn is_empty(&self) -> bool {
        self.0.is_empty()
    }

    pub fn keys(&self) -> hash_map::Keys<'_, K, V> {
        hash_map::Keys(self.0.keys())
    }

    pub fn values(&self) -> impl Iterator<Item = &V> {
        self.0.values()
    }
}

impl<K: PartialEq + Hash, V, S: BuildHasher, A> HashMap<K, V, S, A> {
    pub fn contains_key<Q: PartialEq + Hash + ?Sized>(&self, name: &Q) -> bool
    where
        K: Borrow<Q>,
    {
        self.0.contains_key(Named::of(name))
    }

    pub fn get<Q: PartialEq + Hash + ?Sized>(&self, name: &Q) -> Option<&V>
    where
        K: Borrow<Q>,
    {
        self.0.get(Named::of(name))
    }

    pub fn get_mut<Q: PartialEq + Hash + ?Sized>(&mut self, name: &Q) -> Option<&mut V>
    where
        K: Borrow<Q>,
    {
        self.0.get_mut(Named::of(name))
    }

    pub fn reserve(&mut self, additional: usize) -> Result<(), AllocError> {
        self.0.try_reserve(additional).map_err(|_| AllocError)
    }

    pub fn insert(&mut self, key: K, value: V) -> Result<Option<V>, AllocError> {
        self.0.try_reserve(1).map_err(|_| AllocError)?;
        Ok(self.0.insert(Key(key), value))
    }

    pub fn remove<Q: PartialEq + Hash + ?Sized>(&mut self, name: &Q) -> Option<V>
    where
        K: Borrow<Q>,
    {
        self.0.remove(Named::of(name))
    }
}

pub mod hash_map {
    use super::{Key, rust};

    /// The keys of a map, in any order.
    pub struct Keys<'a, K, V>(pub(super) rust::Keys<'a, Key<K>, V>);

    impl<'a, K, V> Iterator for Keys<'a, K, V> {
        type Item = &'a K;

        fn next(&mut self) -> Option<&'a K> {
            self.0.next().map(|key| &key.0)
        }

        fn size_hint(&self) -> (usize, Option<usize>) {
            self.0.size_hint()
        }
    }

    impl<K, V> ExactSizeIterator for Keys<'_, K, V> {}
}
