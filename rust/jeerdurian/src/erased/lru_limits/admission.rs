// Erased from crates/lru_limits/src/admission.rt: do not edit.
//! Limiters that accept each entry unchanged, or reject it.

#[allow(unused_imports)]
use crate::rattle_std::prelude::*;

use crate::erased::lru_limits::keys::LookupKey;
use crate::erased::lru_limits::limiter::{Insertion, Limiter};
use crate::rattle_std::alloc::{AllocError, Global};
use crate::rattle_std::hash::Hash;

/// Accepts or rejects entries, and changes no accepted entry.
///
/// Every `Admission` is an [`Insertion`], and can be part of [`crate::Both`]. If the `Admission` is `Copy`, its map has
/// `try_insert`. `never_changes` of `specs/Admissions.antt` defines the terms of a limiter that never changes.
pub trait Admission<K, V>: Limiter<K, V> {
    /// Returns whether `admit` would accept this entry.
    fn accepts(&self, length: usize, key: &K, value: &V) -> bool;

    /// Returns whether the entry is accepted. Called by an insert with a new key and its value, before the insert
    /// evicts anything. The map has `length` entries. If the entry is rejected, they do not change. `try_insert` also
    /// calls `admit` on copies of the limiter.
    fn admit(&mut self, length: usize, key: &K, value: &V) -> bool;

    /// Returns whether `admit_in_place` would accept this value.
    fn accepts_in_place(&self, length: usize, key: &K, old_value: &V, new_value: &V) -> bool;

    /// Returns whether the new value is accepted. Called by an insert or an update before `new_value` replaces
    /// `old_value` of a stored key. The map has `length` entries. If the value is rejected, the map removes the entry.
    fn admit_in_place(&mut self, length: usize, key: &K, old_value: &V, new_value: &V) -> bool;
}

impl<K: Eq + Hash, V, L: Admission<K, V>> Insertion<K, V, K> for L {
    // Forced inline: the caller then uses the entry unchanged, and branches instead of selecting between `Some` and
    // `None`.
    #[inline(always)]
    fn on_insert(&mut self, _alloc: Global, length: usize, key: K, value: V) -> Result<Option<(K, V)>, AllocError> {
        if self.admit(length, &key, &value) { Ok(Some((key, value))) } else { Ok(None) }
    }

    #[inline]
    fn on_replace(
        &mut self,
        length: usize,
        old_key: &mut K,
        _new_key: K,
        old_value: &mut V,
        new_value: &mut V,
    ) -> bool {
        drop(_new_key);
        self.admit_in_place(length, &*old_key, &*old_value, &*new_value)
    }
}
