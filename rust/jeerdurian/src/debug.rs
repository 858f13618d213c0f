//! Impls of `Debug` for types whose keys, values or closures need not be `Debug`. They show a name, and some a field.

use crate::erased::lru_limits::LinkType;
use crate::erased::{ordered_table, schnellru};
use crate::limiter::Limiter;
use crate::rattle_std::hash::Hash;
use core::hash::BuildHasher;

macro_rules! shows {
    ($([$($parameters:tt)*] $name:ident: $type:ty $(, $field:ident: |$it:ident| $number:expr)?;)*) => {$(
        impl<$($parameters)*> core::fmt::Debug for $type {
            fn fmt(&self, f: &mut core::fmt::Formatter<'_>) -> core::fmt::Result {
                let mut shown = f.debug_struct(stringify!($name));
                $(
                    let $it = self;
                    shown.field(stringify!($field), &$number);
                )?
                shown.finish_non_exhaustive()
            }
        }
    )*};
}
#[cfg(any(feature = "lru", feature = "hashlink"))]
pub(crate) use shows;

shows! {
    [K, V, L: Limiter<K, V>] Iter: crate::Iter<'_, K, V, L>, left: |it| it.len();
    [K, V, L: Limiter<K, V>] IterMut: crate::IterMut<'_, K, V, L>, left: |it| it.len();
    [K, V, L: Limiter<K, V>] Keys: crate::Keys<'_, K, V, L>, left: |it| it.len();
    [K, V, L: Limiter<K, V>] Values: crate::Values<'_, K, V, L>, left: |it| it.len();
    [K: PartialEq + Hash, V, L: Limiter<K, V>, S: BuildHasher] Drain: crate::Drain<'_, K, V, L, S>, left: |it| it.len();
    [K: PartialEq + Hash, V, L: Limiter<K, V>, S: BuildHasher] IntoIter: crate::IntoIter<K, V, L, S>, left: |it| it.len();
    [K, V, L: Limiter<K, V>, S] Fallible: crate::Fallible<'_, K, V, L, S>, len: |it| it.map.map.entries.len();
    [] DefaultHasher: crate::DefaultHasher;
}

// The types of fields of the types above, or of the caches.
shows! {
    [K, V, N: LinkType] Keys: ordered_table::Keys<'_, K, V, N>, left: |it| it.len();
    [K, V, N: LinkType] Values: ordered_table::Values<'_, K, V, N>, left: |it| it.len();
    [K, V, L: schnellru::Limiter<K, V>, S] OccupiedEntry: schnellru::OccupiedEntry<'_, K, V, L, S>;
    [K: PartialEq + Hash, V, L: schnellru::Limiter<K, V>, S: BuildHasher] Drain: schnellru::Drain<'_, K, V, L, S>;
    [K, V, L: schnellru::Limiter<K, V>, S] IntoIter: schnellru::IntoIter<K, V, L, S>;
    [K, V, L: schnellru::Limiter<K, V>, S] IterMut: schnellru::IterMut<'_, K, V, L, S>;
}

#[cfg(feature = "std")]
mod of_std {
    use super::*;
    use crate::Admission;
    use crate::caches::{
        BlockDevice, CountedMap, Entries, EntriesMut, FileDevice, HashedFileDevice, IntoEntries, Keys, Loader, Memo,
        PageCache, Unclosed, Values, ValuesMut,
    };
    use crate::trace::{Best, ByteCurve, Curve, DeleteCurve};
    use core::fmt::Debug;
    use core::hash::Hash;

    shows! {
        [K, V] Entries: Entries<'_, K, V>, left: |it| it.len();
        [K, V] EntriesMut: EntriesMut<'_, K, V>, left: |it| it.len();
        [K, V] ValuesMut: ValuesMut<'_, K, V>, left: |it| it.len();
        [K, V] Keys: Keys<'_, K, V>, left: |it| it.len();
        [K, V] Values: Values<'_, K, V>, left: |it| it.len();
        [K: Eq + Hash, V, S: BuildHasher] IntoEntries: IntoEntries<K, V, S>, left: |it| it.len();
        [K: Eq + Hash, V, L: Limiter<K, V>, S: BuildHasher] CountedMap: CountedMap<K, V, L, S>, counts: |it| it.counts();
        [K: Eq + Hash, V, F, L: Admission<K, V>, S: BuildHasher] Memo: Memo<K, V, F, L, S>;
        [K: Eq + Hash, V, F, L: Admission<K, V>, S: BuildHasher] Loader: Loader<K, V, F, L, S>;
        [B: Copy, D: BlockDevice<B>, S] PageCache: PageCache<B, D, S>;
        [B: Copy, D: BlockDevice<B, Error: Debug>, S] Unclosed: Unclosed<B, D, S>, error: |it| it.error;
        [F, const N: usize] FileDevice: FileDevice<F, N>;
        [F, const N: usize] HashedFileDevice: HashedFileDevice<F, N>;
        [] Best: Best;
        [] ByteCurve: ByteCurve, keys: |it| it.keys();
        [] Curve: Curve, keys: |it| it.keys();
        [] DeleteCurve: DeleteCurve, places: |it| it.places();
    }
}
