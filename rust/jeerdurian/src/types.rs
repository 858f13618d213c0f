//! Re-exports limiters, traits of costs and results of calls from the erased crates, with an example of each.

pub use crate::erased::lru_limits::DefaultHasher;

/// A limiter by the number of entries.
///
/// ```
/// use jeerdurian::{ByLength, LruMap};
///
/// let mut map = LruMap::new(ByLength::new(2));
/// map.extend([(1, 10), (2, 20), (3, 30)]);
/// assert!(map.iter().eq([(&3, &30), (&2, &20)]));
/// ```
pub use crate::erased::lru_limits::ByLength;

/// A limiter by the bytes of the table.
///
/// ```
/// use jeerdurian::{ByMemoryUsage, LruMap};
///
/// let mut map = LruMap::new(ByMemoryUsage::new(1000));
/// map.extend((0..100).map(|n| (n, n)));
/// assert!(map.memory_usage() <= 1000 && map.len() < 100);
/// ```
pub use crate::erased::lru_limits::ByMemoryUsage;

/// A limiter that limits nothing.
///
/// ```
/// use jeerdurian::{LruMap, Unlimited};
///
/// let map: LruMap<u64, u64, Unlimited> = (0..1000).map(|n| (n, n)).collect();
/// assert_eq!(map.len(), 1000);
/// ```
pub use crate::erased::lru_limits::Unlimited;

/// A limiter that limits nothing, with links of 32 bits.
///
/// ```
/// use jeerdurian::{LruMap, UnlimitedCompact};
///
/// let map: LruMap<u64, u64, UnlimitedCompact> = (0..1000).map(|n| (n, n)).collect();
/// assert_eq!(map.len(), 1000);
/// ```
pub use crate::erased::lru_limits::UnlimitedCompact;

/// A limiter by the sum of the costs of the values.
///
/// ```
/// use jeerdurian::{ByCost, LruMap};
///
/// let mut map = LruMap::new(ByCost::new(10));
/// assert!(map.insert(1, "seven b") && map.insert(2, "four"));
/// assert_eq!((map.len(), map.limiter().cost()), (1, 4));
/// assert!(!map.insert(3, "more than ten bytes"));
/// ```
pub use crate::erased::lru_limits::ByCost;

/// A limiter by the sum of the costs of the keys and values, plus a constant for each entry.
///
/// ```
/// use jeerdurian::{ByWeight, LruMap};
///
/// let mut map: LruMap<&str, &str, ByWeight<16>> = LruMap::new(ByWeight::new(50));
/// assert!(map.insert("key", "value"));
/// assert_eq!(map.limiter().cost(), 3 + 5 + 16);
/// ```
pub use crate::erased::lru_limits::ByWeight;

/// A limiter by the bytes of the table plus the bytes that keys and values own.
///
/// ```
/// use jeerdurian::{ByBytes, LruMap};
///
/// let mut map: LruMap<u64, String, ByBytes> = LruMap::new(ByBytes::new(1000));
/// map.extend((0..100).map(|n| (n, "a".repeat(50))));
/// assert!(map.memory_usage() as u64 + map.limiter().owned() <= 1000);
/// assert!(!map.insert(7, "a".repeat(1000)));
/// ```
pub use crate::erased::lru_limits::ByBytes;

/// A limiter that applies two limiters of this crate.
///
/// ```
/// use jeerdurian::{Both, ByCost, ByLength, LruMap};
///
/// let mut map: LruMap<u64, u64, Both<ByCost, ByLength>> = LruMap::new(Both(ByCost::new(10), ByLength::new(2)));
/// assert!(map.insert(1, 4) && map.insert(2, 5) && map.insert(3, 1)); // three entries: entry 1 is evicted
/// assert!(map.insert(4, 7)); // the costs are 5, 1 and 7: entry 2 is evicted
/// assert_eq!((map.len(), map.limiter().0.cost()), (2, 8));
/// ```
pub use crate::erased::lru_limits::Both;

/// A value with a cost, for [`ByCost`] and [`ByWeight`].
///
/// A tuple costs the sum of its parts, and an `Option` what its value costs. An array or a slice costs its number of
/// items. A pointer costs what it points to.
///
/// ```
/// use jeerdurian::{ByCost, Costed, LruMap};
///
/// struct Page {
///     bytes: u64,
/// }
///
/// impl Costed for Page {
///     fn cost(&self) -> u64 {
///         self.bytes
///     }
/// }
///
/// let mut map = LruMap::new(ByCost::new(10_000));
/// (0..5).for_each(|n| assert!(map.insert(n, Page { bytes: 4096 })));
/// assert_eq!((map.len(), "four".cost(), [1u8, 2].as_slice().cost()), (2, 4, 2));
/// ```
pub use crate::erased::lru_limits::Costed;

/// A value that reports which bytes it owns, for [`ByBytes`].
///
/// A reference owns nothing. An `Arc` or `Rc` owns its whole block, so a block that several entries share is counted by
/// each of them.
///
/// ```
/// use jeerdurian::OwnedBytes;
///
/// struct Page {
///     number: u64,
///     text: String,
/// }
///
/// impl OwnedBytes for Page {
///     fn owned_bytes(&self) -> u64 {
///         self.text.owned_bytes()
///     }
/// }
///
/// let page = Page { number: 1, text: String::with_capacity(17) };
/// assert_eq!((page.owned_bytes(), page.number.owned_bytes()), (48, 0));
/// ```
pub use crate::erased::lru_limits::OwnedBytes;

/// The result of [`More::insert_full`](crate::More::insert_full) and of
/// [`TenantCache::put_full`](crate::tenants::TenantCache::put_full). For a rejected new key, see the docs of `put_full`.
///
/// ```
/// use jeerdurian::{ByLength, Inserted, LruMap, More};
///
/// let mut map = LruMap::new(ByLength::new(3));
/// map.insert(1, 10);
/// assert_eq!(map.insert_full(1, 11, |_, _| {}), Inserted { kept: true, unkept: Some(10) });
/// ```
pub use crate::erased::lru_model::Inserted;

/// The result of [`More::update`](crate::More::update).
///
/// ```
/// use jeerdurian::{ByLength, LruMap, More, Updated};
///
/// let mut map = LruMap::new(ByLength::new(3));
/// map.insert(1, 10);
/// assert_eq!((map.update(1, 11), map.update(2, 20)), (Updated::Replaced(10), Updated::Absent(20)));
/// ```
pub use crate::erased::lru_model::Updated;

/// How many entries were moved and stored: the result of [`More::move_report`](crate::More::move_report).
///
/// ```
/// use jeerdurian::{LruMap, More, Unlimited};
///
/// let map: LruMap<u64, u64, Unlimited> = (0..1000).map(|n| (n, n)).collect();
/// let report = map.move_report();
/// assert!(report.placed == 1000 && report.moved <= 2000 && report.shrunk == 0);
/// ```
pub use crate::erased::lru_model::MoveReport;

/// Why [`More::try_reserve`](crate::More::try_reserve) failed.
///
/// ```
/// use jeerdurian::{LruMap, More, ReserveError};
///
/// let mut map: LruMap<u64, u64, _> = LruMap::with_memory_budget(1000);
/// assert_eq!(map.try_reserve(100), Err(ReserveError::Refused));
/// ```
pub use crate::erased::lru_model::ReserveError;

/// Why [`Fallible::get_or_insert`](crate::Fallible::get_or_insert) failed.
///
/// ```
/// use jeerdurian::{ByLength, GetOrInsertError, LruMap, More};
///
/// let mut map: LruMap<u64, u64> = LruMap::new(ByLength::new(3));
/// let answer = map.fallible().get_or_insert(1, || Err("no value"));
/// assert_eq!(answer, Err(GetOrInsertError::Caller("no value")));
/// ```
pub use crate::erased::lru_model::GetOrInsertError;
