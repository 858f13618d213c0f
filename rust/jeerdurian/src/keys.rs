//! Keys as the proved map sees them: look-up keys, and keys offered to an insert.

use crate::erased::lru_limits::LookupKey;
use core::borrow::Borrow;
use core::hash::{Hash, Hasher};

/// A look-up key: any value that can be compared with the map's keys, and hashes as they do.
pub(crate) struct Named<'a, Q: ?Sized>(pub(crate) &'a Q);

impl<Q: Hash + ?Sized> Hash for Named<'_, Q> {
    #[inline]
    fn hash<H: Hasher>(&self, hasher: &mut H) {
        self.0.hash(hasher);
    }
}

impl<K: PartialEq + Hash, Q: Hash + PartialEq<K> + ?Sized> LookupKey<K> for Named<'_, Q> {
    #[inline]
    fn is_key(&self, key: &K) -> bool {
        *self.0 == *key
    }
}

/// A key that is offered to an insert. It has no `==` of its own, so it cannot be a map's key.
pub(crate) struct Offered<Q>(pub(crate) Q);

impl<Q: Hash> Hash for Offered<Q> {
    #[inline]
    fn hash<H: Hasher>(&self, hasher: &mut H) {
        self.0.hash(hasher);
    }
}

impl<K: PartialEq + Hash, Q: Hash + PartialEq<K>> LookupKey<K> for Offered<Q> {
    #[inline]
    fn is_key(&self, key: &K) -> bool {
        self.0 == *key
    }
}

/// A look-up key of a cache: a key, or what a key can be borrowed as, such as a `str` for a `String`.
pub(crate) struct Borrowed<'a, Q: ?Sized>(pub(crate) &'a Q);

impl<Q: Hash + ?Sized> Hash for Borrowed<'_, Q> {
    #[inline]
    fn hash<H: Hasher>(&self, hasher: &mut H) {
        self.0.hash(hasher);
    }
}

impl<K: Borrow<Q> + Eq + Hash, Q: Eq + Hash + ?Sized> LookupKey<K> for Borrowed<'_, Q> {
    #[inline]
    fn is_key(&self, key: &K) -> bool {
        self.0 == key.borrow()
    }
}
