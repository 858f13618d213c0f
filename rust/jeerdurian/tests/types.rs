//! Tests that signatures, auto traits, variance, layouts and constants are those of schnellru.

use jeerdurian::{
    ByLength, ByMemoryUsage, Drain, IntoIter, Iter, IterMut, Keys, Limiter, LruMap, OccupiedEntry, RandomState,
    Unlimited, UnlimitedCompact, Values, caches, tenants,
};
use std::cell::{Cell, RefCell, UnsafeCell};
use std::fmt::Debug;
use std::hash::{BuildHasher, Hash};
use std::panic::{RefUnwindSafe, UnwindSafe};
use std::sync::{Mutex, MutexGuard};

/// Returns whether a type has an auto trait: if it has, an inherent method hides the trait's method.
struct Asked<T: ?Sized>(std::marker::PhantomData<T>);

trait No {
    fn is_send(&self) -> bool {
        false
    }
    fn is_sync(&self) -> bool {
        false
    }
    fn is_unwind_safe(&self) -> bool {
        false
    }
    fn is_ref_unwind_safe(&self) -> bool {
        false
    }
}

impl<T: ?Sized> No for &Asked<T> {}

macro_rules! yes {
    ($($method:ident: $bound:ident,)*) => {$(
        impl<T: $bound + ?Sized> Asked<T> {
            fn $method(&self) -> bool {
                true
            }
        }
    )*};
}

yes!(is_send: Send, is_sync: Sync, is_unwind_safe: UnwindSafe, is_ref_unwind_safe: RefUnwindSafe,);

macro_rules! asked {
    ($type:ty) => {{
        let it = &Asked::<$type>(std::marker::PhantomData);
        (it.is_send(), it.is_sync(), it.is_unwind_safe(), it.is_ref_unwind_safe())
    }};
}

/// A map has the auto traits of a vector of its keys and values, and so have its iterators.
macro_rules! alike {
    ($($type:ty),*) => {$({
        assert_eq!(asked!(LruMap<$type, u8>), asked!(Vec<$type>), stringify!($type));
        assert_eq!(asked!(LruMap<u8, $type>), asked!(Vec<$type>), stringify!($type));
        assert_eq!(asked!(Iter<'static, u8, $type, ByLength>), asked!(&'static Vec<$type>), stringify!($type));
        assert_eq!(asked!(IterMut<'static, u8, $type, ByLength>), asked!(&'static mut Vec<$type>), stringify!($type));
        assert_eq!(asked!(Drain<'static, u8, $type, ByLength, RandomState>), asked!(&'static mut Vec<$type>));
    })*};
}

#[test]
fn auto_traits() {
    alike!(u64, String, Box<dyn Fn()>, Box<dyn Fn() + Send>, Box<dyn Fn() + Sync>, std::rc::Rc<u8>, Cell<u8>);
    alike!(RefCell<u8>, UnsafeCell<u8>, *mut u8, &'static Cell<u8>, &'static mut u8, MutexGuard<'static, u8>);
}

/// Tests that types have the auto traits of another type.
macro_rules! same {
    ($other:ty: $($type:ty),* $(,)?) => {$({
        assert_eq!(asked!($type), asked!($other), stringify!($type));
    })*};
}

/// Each iterator has the auto traits of a reference to its keys and values. Each cache has the auto traits of a vector.
macro_rules! lend_alike {
    ($($type:ty),*) => {$(
        same!(&'static Vec<$type>:
            Iter<'static, $type, u8, ByLength>, Keys<'static, $type, u8, ByLength>, Keys<'static, u8, $type, ByLength>,
            Values<'static, u8, $type, ByLength>, Values<'static, $type, u8, ByLength>,
            caches::Entries<'static, $type, u8>, caches::Entries<'static, u8, $type>,
            caches::Keys<'static, $type, u8>, caches::Values<'static, u8, $type>);
        same!(&'static mut Vec<$type>: IterMut<'static, $type, u8, ByLength>,
            caches::EntriesMut<'static, $type, u8>, caches::EntriesMut<'static, u8, $type>,
            caches::ValuesMut<'static, u8, $type>, caches::ValuesMut<'static, $type, u8>,
            OccupiedEntry<'static, $type, u8, ByLength, RandomState>,
            OccupiedEntry<'static, u8, $type, ByLength, RandomState>);
        same!(Vec<$type>:
            IntoIter<$type, u8, ByLength, RandomState>, IntoIter<u8, $type, ByLength, RandomState>,
            caches::OrderedMap<u8, $type>, caches::IntoEntries<u8, $type, RandomState>,
            caches::Memo<u8, $type, fn(&u8) -> $type>, tenants::TenantCache<u8, u8, Vec<$type>>,
            caches::Loader<u8, $type, fn(&u8) -> Result<$type, ()>>, caches::CountedMap<u8, $type>,
            tenants::TenantPool<u8, u8, Vec<$type>>);
    )*};
}

#[test]
fn auto_traits_of_iterators_and_caches() {
    lend_alike!(u64, Box<dyn Fn() + Send>, Box<dyn Fn() + Sync>, std::rc::Rc<u8>, Cell<u8>, MutexGuard<'static, u8>);
    same!(std::rc::Rc<u8>: caches::OrderedMap<std::rc::Rc<u8>, u8>, tenants::TenantCache<u8, std::rc::Rc<u8>, u8>,
        tenants::TenantCache<std::rc::Rc<u8>, u8, u8>, caches::Memo<u8, u8, std::rc::Rc<u8>>,
        tenants::TenantPool<std::rc::Rc<u8>, u8, u8>, caches::Loader<u8, u8, std::rc::Rc<u8>>);
}

#[test]
fn variance() {
    fn keys<'a>(it: Keys<'static, u8, u8, ByLength>) -> Keys<'a, u8, u8, ByLength> {
        it
    }
    fn values<'a>(it: Values<'static, u8, u8, ByLength>) -> Values<'a, u8, u8, ByLength> {
        it
    }
    _ = (keys, values);
    fn shorter<'a>(it: Iter<'static, u8, u8, ByLength>) -> Iter<'a, u8, u8, ByLength> {
        it
    }
    fn hasher<'a>(it: LruMap<u8, u8, ByLength, H<'static>>) -> LruMap<u8, u8, ByLength, H<'a>> {
        it
    }
    #[derive(Clone, Default)]
    struct H<'a>(std::hash::BuildHasherDefault<std::hash::DefaultHasher>, std::marker::PhantomData<&'a ()>);
    impl BuildHasher for H<'_> {
        type Hasher = std::hash::DefaultHasher;
        fn build_hasher(&self) -> Self::Hasher {
            self.0.build_hasher()
        }
    }
    let map = LruMap::with_hasher(ByLength::new(1), H::default());
    shorter(LruMap::<u8, u8>::new(ByLength::new(1)).iter_static());
    assert!(hasher(map).is_empty());
}

trait IterStatic {
    fn iter_static(self) -> Iter<'static, u8, u8, ByLength>;
}

impl IterStatic for LruMap<u8, u8> {
    fn iter_static(self) -> Iter<'static, u8, u8, ByLength> {
        Box::leak(Box::new(self)).iter()
    }
}

/// What a caller that is generic over the limiter may rely on.
fn generic<K: Hash + PartialEq, V, L: Limiter<K, V>, S: BuildHasher>(map: &mut LruMap<K, V, L, S>) -> usize
where
    L::LinkType: Copy + Eq + Debug,
{
    map.iter_mut().for_each(drop);
    map.drain().len()
}

/// A struct without bounds that contains a map can derive traits.
#[derive(Clone, Debug)]
struct Holder<K, V, L: Limiter<K, V>>(LruMap<K, V, L>);

#[test]
fn holders_and_generic_callers() {
    let mut holder = Holder(LruMap::new(UnlimitedCompact));
    holder.0.insert("a", 1);
    let mut copy = holder.clone();
    assert!(format!("{copy:?}").contains("len: 1"));
    assert_eq!((generic(&mut copy.0), holder.0.len()), (1, 1));
    let entry = jeerdurian::More::find_entry(&mut holder.0, &"a");
    assert_eq!(format!("{entry:?}"), r#"Some(OccupiedEntry { key: "a", value: 1 })"#);
}

type S = std::hash::BuildHasherDefault<std::hash::DefaultHasher>;
static BY_LENGTH: Mutex<LruMap<u64, u64, ByLength, S>> = Mutex::new(LruMap::with_hasher(ByLength::new(2), S::new()));
static BY_MEMORY: Mutex<LruMap<u64, u64, ByMemoryUsage, S>> =
    Mutex::new(LruMap::with_memory_budget_and_hasher(1000, S::new()));
static UNLIMITED: Mutex<LruMap<u64, u64, Unlimited>> = Mutex::new(LruMap::with_seed(Unlimited, [1, 2, 3, 4]));

#[test]
fn constructors_are_const() {
    assert!(BY_LENGTH.lock().unwrap().insert(1, 2));
    assert!(BY_MEMORY.lock().unwrap().insert(1, 2));
    assert!(UNLIMITED.lock().unwrap().insert(1, 2));
}

/// These limiters may be passed by value to C.
#[deny(improper_ctypes_definitions)]
extern "C" fn most(length: ByLength, _: ByMemoryUsage) -> u32 {
    length.max_length()
}

#[test]
fn limiters_are_what_they_limit() {
    assert_eq!(most(ByLength::new(3), ByMemoryUsage::new(4)), 3);
    assert_eq!((size_of::<ByLength>(), align_of::<ByLength>()), (4, 4));
    assert_eq!(size_of::<ByMemoryUsage>(), size_of::<usize>());
    assert_eq!((size_of::<Unlimited>(), size_of::<UnlimitedCompact>()), (0, 0));
}

#[test]
fn aligned_values_are_aligned() {
    #[repr(align(16384))]
    struct Wide(u8);
    let mut map = LruMap::new(UnlimitedCompact);
    for n in 0..100u8 {
        map.insert(n, Wide(n));
        assert!(map.iter().all(|(key, value)| *key == value.0 && (&raw const *value).addr() % 16384 == 0));
    }
}

/// A `BuildHasher` that overrides `hash_one`, even by type, changes no answer: the map builds a hasher, and hashes with it.
#[test]
fn an_overridden_hash_one_is_not_called() {
    #[derive(Default)]
    struct Typed;
    impl BuildHasher for Typed {
        type Hasher = std::hash::DefaultHasher;
        fn build_hasher(&self) -> Self::Hasher {
            Default::default()
        }
        fn hash_one<T: Hash>(&self, _: T) -> u64 {
            panic!("`hash_one` is called")
        }
    }
    let mut map = LruMap::with_hasher(Unlimited, Typed);
    (0..100u64).for_each(|n| assert!(map.insert(n, n)));
    assert!((0..100u64).all(|n| map.get(&n) == Some(&mut { n })));
}

#[test]
fn seeds_differ() {
    let [a, b, c] = [0; 3].map(|_| RandomState::default().hash_one(1));
    assert!(a != b || b != c);
}

/// Entries of size 0 whose keys equal nothing: each is stored, and dropped once.
#[test]
fn keys_and_values_of_no_size() {
    thread_local!(static LIVE: Cell<i64> = const { Cell::new(0) });
    struct Nothing;
    impl Hash for Nothing {
        fn hash<H: std::hash::Hasher>(&self, _: &mut H) {}
    }
    impl PartialEq for Nothing {
        fn eq(&self, _: &Self) -> bool {
            false
        }
    }
    impl Drop for Nothing {
        fn drop(&mut self) {
            LIVE.set(LIVE.get() - 1);
        }
    }
    assert_eq!(size_of::<Nothing>(), 0);
    let mut map = LruMap::new(UnlimitedCompact);
    for n in 1..=200 {
        LIVE.set(LIVE.get() + 2);
        assert!(map.insert(Nothing, Nothing));
        assert_eq!((map.iter().count(), map.iter_mut().count()), (n, n));
    }
    drop((map.pop_oldest(), map.drain().nth(9)));
    assert_eq!((map.len(), LIVE.get()), (0, 0));
}
