//! Limiters with the signatures of `schnellru`, and as the proved map calls them.

use crate::erased::lru_limits as proved;
use crate::erased::lru_limits::{
    Both, ByBytes, ByCost, ByLength, ByMemoryUsage, ByWeight, Costed, LinkType, OwnedBytes, Unlimited, UnlimitedCompact,
};
use crate::keys::Offered;
use crate::rattle_std::alloc::{AllocError, Global};
use core::fmt::Debug;
use core::hash::Hash;

/// Decides which entries a map accepts, when it is over its limit, and whether its table may grow.
///
/// The map's answers are proved for limiters whose callbacks depend only on their arguments and the limiter's state.
/// Only callbacks that take `&mut self` may change this state. With other limiters, answers may be wrong, but memory
/// stays safe.
///
/// ```
/// use jeerdurian::{Limiter, LruMap};
///
/// struct Even;
///
/// impl<V> Limiter<u64, V> for Even {
///     type KeyToInsert<'a> = u64;
///     type LinkType = u32;
///
///     fn is_over_the_limit(&self, length: usize) -> bool {
///         length > 100
///     }
///     fn on_insert(&mut self, _length: usize, key: u64, value: V) -> Option<(u64, V)> {
///         (key % 2 == 0).then_some((key, value))
///     }
///     fn on_replace(&mut self, _length: usize, _: &mut u64, _: u64, _: &mut V, _: &mut V) -> bool {
///         true
///     }
///     fn on_removed(&mut self, _key: &mut u64, _value: &mut V) {}
///     fn on_cleared(&mut self) {}
///     fn on_grow(&mut self, _new_memory_usage: usize) -> bool {
///         true
///     }
/// }
///
/// let mut map = LruMap::new(Even);
/// assert!(map.insert(2, "two"));
/// assert!(!map.insert(3, "three"));
/// ```
pub trait Limiter<K, V> {
    /// What `insert` takes as a key: the key itself, or something that becomes the key only if it is stored.
    type KeyToInsert<'a>;

    /// The type of the links between the entries: `u8`, `u16`, `u32` or `usize`. It limits the number of entries to
    /// 112, 28,672, 1,879,048,192, or what memory holds.
    type LinkType: LinkType + Eq + Debug;

    /// Returns whether a map of `length` entries is over the limit. A map over its limit evicts its oldest entry.
    ///
    /// Called in two cases:
    ///
    /// - Before an insert stores a new entry in a map that is not empty, `length` is the length of the map plus 1.
    ///   `try_insert` calls `is_over_the_limit` on a copy of the limiter, even if the map is empty, and evicts nothing.
    /// - In `trim`, in `set_limiter`, and at the end of an insert or an update that stored a value, `length` is the
    ///   length of the map. The map repeats the call after each eviction, until the map is empty.
    fn is_over_the_limit(&self, length: usize) -> bool;

    /// Returns the entry to store, or `None` to reject the offered entry.
    ///
    /// Called by an insert with a new key and its value, before the insert evicts anything. The map has `length`
    /// entries. If the entry is rejected, they do not change.
    fn on_insert(&mut self, length: usize, key: Self::KeyToInsert<'_>, value: V) -> Option<(K, V)>;

    /// Returns whether the new value is accepted. If it is rejected, the map removes the entry.
    ///
    /// Called by an insert or an update before `new_value` replaces `old_value`. The map has `length` entries. The
    /// stored `old_key` stays; the limiter may change it only to an equal key.
    fn on_replace(
        &mut self,
        length: usize,
        old_key: &mut K,
        new_key: Self::KeyToInsert<'_>,
        old_value: &mut V,
        new_value: &mut V,
    ) -> bool;

    /// Called with each entry that is evicted, removed, popped or taken by an iterator, as soon as the entry is out of
    /// the map. The limiter may write to the key and the value before the caller of the map gets them.
    ///
    /// Also called with an accepted entry that was not stored, because no table can hold it or a callback panicked. Not
    /// called with an entry that a clear, a dropped `Drain`, a dropped `IntoIter` or a dropped map drops.
    fn on_removed(&mut self, key: &mut K, value: &mut V);

    /// Called once by each clear of the map, even if the map is empty. Dropping a `Drain` counts as a clear. Also
    /// called if a panic leaves the map without entries.
    fn on_cleared(&mut self);

    /// Returns whether the map may have a larger table, of `new_memory_usage` bytes.
    ///
    /// Called by an insert that finds no bucket for a new entry, and by `try_reserve` and `try_insert` if too little
    /// growth is left. Not called if there is no larger table, or if the table is rehashed without growing. If the
    /// result is `false`, the insert evicts the oldest entries to store the new entry, and `try_reserve` and
    /// `try_insert` fail. If the result is `true`, the allocation of the table may still fail, and the limiter is not
    /// notified of this.
    ///
    /// Also called with 0 after a panic has left the map without a table; the map ignores what this call returns.
    fn on_grow(&mut self, new_memory_usage: usize) -> bool;

    /// Returns for how many of `n` new entries `extend` reserves growth in a map of `length` entries.
    #[doc(hidden)]
    fn growth_for_extend(&self, _length: usize, _n: usize) -> usize {
        0
    }
}

/// A limiter that says in advance what it accepts. [`More::try_insert`](crate::More::try_insert) needs it.
///
/// The limiters of this crate implement it. The promises of `try_insert` suppose that `accepts` returns whether
/// `on_insert` would accept the entry unchanged, and that `on_stored` changes the limiter as `on_insert` would.
pub trait Admission<K, V>: for<'a> Limiter<K, V, KeyToInsert<'a> = K> {
    /// Returns whether `on_insert` would accept this entry in a map of `length` entries.
    fn accepts(&self, length: usize, key: &K, value: &V) -> bool;

    /// Changes the limiter as `on_insert` of this entry would.
    fn on_stored(&mut self, length: usize, key: &K, value: &V);
}

// The callbacks of a proved limiter under schnellru's signatures. `$growth` is `growth_for_extend`, if it is not 0.
macro_rules! by_the_proved_limiter {
    ([$($parameters:tt)*] $limiter:ty, $link:ty $(, $growth:expr)?) => {
        impl<$($parameters)*> Limiter<K, V> for $limiter {
            type KeyToInsert<'a> = K;
            type LinkType = $link;

            #[inline]
            fn is_over_the_limit(&self, length: usize) -> bool {
                proved::Limiter::<K, V>::is_over_the_limit(self, length)
            }

            #[inline(always)]
            fn on_insert(&mut self, length: usize, key: K, value: V) -> Option<(K, V)> {
                if proved::Admission::admit(self, length, &key, &value) { Some((key, value)) } else { None }
            }

            #[inline]
            fn on_replace(&mut self, length: usize, old_key: &mut K, key: K, old: &mut V, new: &mut V) -> bool {
                // Dropped first: if the drop unwinds, the total still counts the old value.
                drop(key);
                proved::Admission::<K, V>::admit_in_place(self, length, old_key, old, new)
            }

            #[inline]
            fn on_removed(&mut self, key: &mut K, value: &mut V) {
                proved::Limiter::<K, V>::on_removed(self, key, value);
            }

            #[inline]
            fn on_cleared(&mut self) {
                proved::Limiter::<K, V>::on_cleared(self);
            }

            #[inline]
            fn on_grow(&mut self, new_memory_usage: usize) -> bool {
                proved::Limiter::<K, V>::on_grow(self, new_memory_usage)
            }

            $(
                fn growth_for_extend(&self, length: usize, n: usize) -> usize {
                    let growth: fn(&Self, usize, usize) -> usize = $growth;
                    growth(self, length, n)
                }
            )?
        }

        impl<$($parameters)*> Admission<K, V> for $limiter {
            #[inline]
            fn accepts(&self, length: usize, key: &K, value: &V) -> bool {
                proved::Admission::<K, V>::accepts(self, length, key, value)
            }

            #[inline]
            fn on_stored(&mut self, length: usize, key: &K, value: &V) {
                proved::Admission::<K, V>::admit(self, length, key, value);
            }
        }
    };
}

by_the_proved_limiter!([K, V] ByLength, u32, |it, length, n| n.min((it.max_length() as usize).saturating_sub(length)));
by_the_proved_limiter!([K, V] ByMemoryUsage, u32);
by_the_proved_limiter!([K, V] Unlimited, usize, |_, _, n| n);
by_the_proved_limiter!([K, V] UnlimitedCompact, u32, |_, _, n| n);
by_the_proved_limiter!([K: OwnedBytes, V: OwnedBytes] ByBytes, u32);
by_the_proved_limiter!([K, V: Costed] ByCost, usize);
by_the_proved_limiter!([K: Costed, V: Costed, const OVERHEAD: u64] ByWeight<OVERHEAD>, usize);
by_the_proved_limiter!(
    [K, V, A: proved::Admission<K, V, LinkType: Eq + Debug>, B: proved::Admission<K, V>] Both<A, B>, A::LinkType
);

/// A limiter as the proved map calls it.
#[derive(Clone, Copy)]
pub(crate) struct Calls<L>(pub(crate) L);

impl<K, V, L: Limiter<K, V>> proved::Limiter<K, V> for Calls<L> {
    type LinkType = L::LinkType;

    #[inline]
    fn is_over_the_limit(&self, length: usize) -> bool {
        self.0.is_over_the_limit(length)
    }

    #[inline]
    fn on_removed(&mut self, key: &mut K, value: &mut V) {
        self.0.on_removed(key, value);
    }

    #[inline]
    fn on_cleared(&mut self) {
        self.0.on_cleared();
    }

    #[inline]
    fn on_grow(&mut self, new_memory_usage: usize) -> bool {
        self.0.on_grow(new_memory_usage)
    }
}

impl<'a, K, V, L> proved::Insertion<K, V, Offered<L::KeyToInsert<'a>>> for Calls<L>
where
    K: PartialEq + Hash,
    L: Limiter<K, V>,
    L::KeyToInsert<'a>: Hash + PartialEq<K>,
{
    #[inline(always)]
    fn on_insert(
        &mut self,
        _: Global,
        length: usize,
        key: Offered<L::KeyToInsert<'a>>,
        value: V,
    ) -> Result<Option<(K, V)>, AllocError> {
        Ok(self.0.on_insert(length, key.0, value))
    }

    #[inline]
    fn on_replace(
        &mut self,
        length: usize,
        old_key: &mut K,
        new_key: Offered<L::KeyToInsert<'a>>,
        old_value: &mut V,
        new_value: &mut V,
    ) -> bool {
        self.0.on_replace(length, old_key, new_key.0, old_value, new_value)
    }
}

impl<K, V, L: Admission<K, V>> proved::Admission<K, V> for Calls<L> {
    #[inline]
    fn accepts(&self, length: usize, key: &K, value: &V) -> bool {
        self.0.accepts(length, key, value)
    }

    #[inline]
    fn admit(&mut self, length: usize, key: &K, value: &V) -> bool {
        let is_accepted = self.0.accepts(length, key, value);
        if is_accepted {
            self.0.on_stored(length, key, value);
        }
        is_accepted
    }

    // No map of this crate calls this function or the next.
    fn accepts_in_place(&self, _: usize, _: &K, _: &V, _: &V) -> bool {
        false
    }

    fn admit_in_place(&mut self, _: usize, _: &K, _: &V, _: &V) -> bool {
        false
    }
}
