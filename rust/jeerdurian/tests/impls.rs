//! What errors, caches, limiters and traces of Rust implement: traits of std, costs, and reservations.

use jeerdurian::caches::{
    BlockDevice, CountedMap, FileDevice, FileError, Loader, Memo, OrderedMap, PageCache, PageError,
};
use jeerdurian::trace::{Curve, DeleteCurve, Form, Options, Policies, SizeError};
use jeerdurian::{
    ByCost, ByLength, ByWeight, Costed, LruMap, More, OwnedBytes, RandomState, Unlimited, UnlimitedCompact,
};
use std::borrow::Cow;
use std::error::Error;
use std::rc::Rc;
use std::sync::Arc;

/// A device of blocks of 4 bytes, whose syncs fail.
struct NoSync;

impl BlockDevice<[u8; 4]> for NoSync {
    type Error = FileError;

    fn has(&self, _: u64) -> bool {
        true
    }

    fn read(&mut self, _: u64) -> Result<[u8; 4], FileError> {
        Ok([0; 4])
    }

    fn write(&mut self, _: u64, _: &[u8; 4]) -> Result<(), FileError> {
        Ok(())
    }

    fn sync(&mut self) -> Result<(), FileError> {
        Err(FileError::File)
    }
}

fn closes(cache: PageCache<[u8; 4], NoSync>) -> Result<(), Box<dyn Error + Send + Sync>> {
    cache.close()?;
    Ok(())
}

#[test]
fn errors_become_boxes() {
    let sized = || -> Result<(), Box<dyn Error>> { Err(SizeError::TooLarge)? };
    assert_eq!(sized().unwrap_err().to_string(), SizeError::TooLarge.to_string());
    let unclosed = closes(PageCache::new(NoSync, 2)).unwrap_err();
    assert_eq!(unclosed.to_string(), "the cache is not closed: the device failed: the file failed");
    fn is_eq<T: Eq>(_: T) {}
    is_eq((FileError::File, PageError::Device(FileError::File)));
}

#[test]
fn the_seeds_are_not_shown() {
    assert_eq!(format!("{:?}", RandomState::with_seeds([1, 2, 3, 4])), "RandomState { .. }");
}

#[test]
fn caches_are_looked_up_by_what_a_key_borrows() {
    let text = |text: &str| Arc::<str>::from(text);
    let mut counted = CountedMap::new(LruMap::new(ByLength::new(2)));
    assert!(counted.insert(text("a"), 1) && counted.contains("a") && counted.peek("a") == Some(&1));
    assert!(counted.get("a") == Some(&1) && counted.get("b").is_none() && counted.counts().misses == 1);
    assert_eq!(counted.remove("a"), Some(1));
    let mut memo = Memo::new(ByLength::new(2), |key: &Arc<str>| key.len());
    assert_eq!((memo.answer(text("four")), memo.get("four"), memo.get_with("four", |n| n + 1)), (4, Some(4), Some(5)));
    assert!(memo.remove("four") && memo.is_empty());
    let mut loader = Loader::new(ByLength::new(2), |key: &Arc<str>| Ok::<_, ()>(key.len()));
    assert!(loader.load(text("four")) == Ok(4) && loader.remove("four") && !loader.remove("four"));
}

#[test]
fn costs_of_more_types() {
    assert_eq!((().cost(), Some(3u64).cost(), None::<u64>.cost(), [7u64; 5].cost()), (0, 3, 0, 5));
    assert_eq!(((3u8, "four").cost(), (1u8, 2u16, 3u32).cost(), (1u8, "a", (), [0; 2]).cost()), (7, 6, 4));
    assert_eq!((u64::MAX, 1u8).cost(), u64::MAX);
    let mut map: LruMap<(u64, &str), (), ByWeight<1>> = LruMap::new(ByWeight::new(10));
    assert!(map.insert((1, "four"), ()) && !map.insert((9, "four"), ()));
}

#[test]
fn owned_bytes_of_more_types() {
    let none = Cow::Borrowed("text").owned_bytes() + "text".owned_bytes() + OwnedBytes::owned_bytes(&&vec![1u8]);
    let numbers = std::num::NonZeroU64::MIN.owned_bytes() + std::num::NonZero::<i8>::MIN.owned_bytes();
    let times = std::time::Duration::MAX.owned_bytes() + std::time::Instant::now().owned_bytes();
    assert_eq!((none, numbers, times), (0, 0, 0));
    let text = || String::with_capacity(17);
    assert_eq!(((1u8, 2u8, text()).owned_bytes(), (1u8, text(), text(), 2u8).owned_bytes()), (48, 96));
    // A shared block has two counts: 16 + 17 bytes, rounded up to 40, count as 48 + 16.
    assert_eq!((Arc::<str>::from("a".repeat(17)).owned_bytes(), Rc::<[u8]>::from(vec![1; 17]).owned_bytes()), (64, 64));
    assert_eq!(Arc::new("a".repeat(17)).owned_bytes(), 64 + 48);
    let path = std::path::PathBuf::from("a".repeat(17));
    assert_eq!((path.owned_bytes(), path.into_os_string().owned_bytes(), Rc::new(()).owned_bytes()), (48, 48, 32));
    // The erased impls and the impls of this crate round alike.
    for n in 0..100 {
        assert_eq!(String::with_capacity(n).owned_bytes(), Vec::<u8>::with_capacity(n).owned_bytes());
    }
}

/// An iterator that promises entries, and has none.
struct Promises(usize);

impl Iterator for Promises {
    type Item = (u64, u64);

    fn next(&mut self) -> Option<(u64, u64)> {
        None
    }

    fn size_hint(&self) -> (usize, Option<usize>) {
        (self.0, None)
    }
}

#[test]
fn promised_entries_are_reserved() {
    let one = || std::iter::once((1, 1));
    let capacity = |mut map: OrderedMap<u64, u64>, n| {
        map.extend(Promises(n));
        let mut unlimited: LruMap<u64, u64, Unlimited> = LruMap::default();
        let mut compact: LruMap<u64, u64, UnlimitedCompact> = LruMap::default();
        unlimited.extend(map.iter().map(|(key, value)| (*key, *value)));
        compact.extend(map.iter().map(|(key, value)| (*key, *value)));
        unlimited.extend(Promises(n));
        compact.extend(Promises(n));
        assert_eq!(unlimited.guaranteed_capacity(), compact.guaranteed_capacity());
        // Both maps have tables of the same size.
        assert_eq!(map.shrink_to_fit(), Ok(unlimited.shrink_to_fit()));
        LruMap::<u64, u64, Unlimited>::from_iter(Promises(n)).guaranteed_capacity()
    };
    assert!(capacity(OrderedMap::new(), 1000) >= 1000);
    assert!(capacity(one().collect(), 1000) >= 1000);
    assert_eq!(capacity(OrderedMap::new(), usize::MAX), 0);
    let mut half: LruMap<u64, u64, Unlimited> = one().collect();
    half.extend(Promises(1000));
    assert!((501..1000).contains(&half.guaranteed_capacity()));
    let mut limited: LruMap<u64, u64> = LruMap::new(ByLength::new(20));
    limited.extend(Promises(1000));
    assert!((20..40).contains(&limited.guaranteed_capacity()));
    let mut costs: LruMap<u64, u64, ByCost> = LruMap::new(ByCost::new(20));
    costs.extend(Promises(1000));
    assert_eq!(costs.guaranteed_capacity(), 0);
    assert_eq!(OrderedMap::<u64, u64>::from_iter(Promises(1000)).shrink_to_fit(), Ok(true));
}

#[test]
fn ordered_maps_lend_their_values() {
    let mut map = OrderedMap::from([(1, 10), (2, 20), (3, 30), (4, 40)]);
    assert!(map.move_to_back(&2)); // 1, 3, 4, 2
    let mut entries = map.iter_mut();
    assert_eq!((entries.next(), entries.next_back(), entries.len()), (Some((&1, &mut 10)), Some((&2, &mut 20)), 2));
    assert_eq!(format!("{entries:?}"), "EntriesMut { left: 2, .. }");
    for (key, value) in &mut map {
        *value += key;
    }
    let lent: Vec<&mut i32> = map.values_mut().rev().collect();
    lent.into_iter().enumerate().for_each(|(n, value)| *value += n as i32);
    assert!(map.iter().eq([(&1, &14), (&3, &35), (&4, &45), (&2, &22)]));
    assert!(map.values_mut().last() == Some(&mut 22) && map.values_mut().count() == 4);
    assert!(OrderedMap::<u8, u8>::new().iter_mut().next().is_none());
    let other: OrderedMap<u64, u64, std::hash::RandomState> = OrderedMap::default();
    assert!(other.is_empty() && OrderedMap::<u64, u64>::with_capacity(9).is_ok());
}

/// A cache of n places, as a list of keys, newest first.
fn misses(calls: &[(bool, u64)], warm: usize, places: usize) -> u64 {
    let mut keys: Vec<u64> = Vec::new();
    let mut misses = 0;
    for (at, (deletes, key)) in calls.iter().enumerate() {
        let place = keys.iter().position(|it| it == key);
        place.map(|place| keys.remove(place));
        if !deletes {
            misses += u64::from(place.is_none() && at >= warm);
            keys.insert(0, *key);
            keys.truncate(places);
        }
    }
    misses
}

#[test]
fn curves_after_a_warm_up_and_with_deletes() {
    for seed in 1..40u64 {
        let mut state = seed;
        let mut next = |n: u64| {
            state = state.wrapping_mul(6364136223846793005).wrapping_add(1442695040888963407);
            (state >> 33) % n
        };
        let calls: Vec<(bool, u64)> = (0..200).map(|_| (next(5) == 0, next(20))).collect();
        let refers: Vec<(bool, u64)> = calls.iter().map(|(_, key)| (false, *key)).collect();
        let mut curve = Curve::keeping_references().unwrap();
        let mut deletes = DeleteCurve::new().unwrap();
        for (at, (is_delete, key)) in calls.iter().enumerate() {
            let key = &key.to_string();
            let warm = at < 50;
            if warm { curve.warm_up(key) } else { curve.refer(key) }.unwrap();
            match (is_delete, warm) {
                (true, _) => deletes.delete(key).unwrap(),
                (false, true) => deletes.warm_up(key).unwrap(),
                (false, false) => deletes.refer(key).unwrap(),
            }
        }
        for places in 0..25 {
            assert_eq!(curve.misses(places), misses(&refers, 50, places), "seed {seed}, {places} places");
            assert_eq!(deletes.misses(places), misses(&calls, 50, places), "seed {seed}, {places} places");
        }
        let best = curve.best().unwrap().unwrap();
        assert!(best.bypass_misses(5) <= best.min_misses(5) && best.min_misses(5) <= misses(&refers[50..], 0, 5));
        assert_eq!(format!("{deletes:?}"), format!("DeleteCurve {{ places: {}, .. }}", deletes.places()));
    }
}

#[test]
fn options_have_defaults() {
    let options = Options::default();
    assert_eq!((options.form, options.policies), (Form::Text, Policies::Lru { warm_up: 0 }));
    assert_eq!((options.column, options.sample), (None, 0));
}

#[test]
#[allow(clippy::manual_hash_one)]
fn a_key_is_found_by_the_hash_that_its_hasher_builds() {
    use std::hash::{BuildHasher, Hash, Hasher};
    let mut map = LruMap::new(ByLength::new(3));
    map.insert("a".to_string(), 1);
    let mut hasher = map.hasher().build_hasher();
    "a".hash(&mut hasher);
    let hash = hasher.finish();
    assert_eq!(map.peek_by_hash(hash, |key, _| key == "a"), Some(&1));
    assert_eq!(map.peek_by_hash_mut(hash, |key, _| key == "a"), Some(&mut 1));
    assert_eq!(map.find_entry_by_hash(hash, |key, _| key == "a").map(|entry| entry.remove()), Some(1));
}

#[test]
fn a_file_device_closes_by_a_question_mark() -> Result<(), Box<dyn Error>> {
    let file = std::io::Cursor::new(*b"zeroone.");
    let mut cache = PageCache::new(FileDevice::<_, 4>::new(file, 2), 2);
    cache.write(0, *b"null")?;
    assert_eq!(cache.close()?.into_file().into_inner(), *b"nullone.");
    Ok(())
}
