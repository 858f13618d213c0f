//! Functions that remember their newest results.

use crate::erased::lru_caches as proved;
use crate::keys::Borrowed;
use crate::limiter::{Admission, Calls};
use crate::rattle_std::alloc::Global;
use crate::{ByLength, RandomState};
use core::borrow::Borrow;
use core::hash::{BuildHasher, Hash};

/// A function that remembers its newest results, up to a limit.
///
/// Proved: each answer is a result of the function at an equal key, if the limiter stores values unchanged. All
/// limiters of this crate do.
///
/// ```
/// use jeerdurian::{ByLength, caches::Memo};
///
/// let mut squares = Memo::new(ByLength::new(9), |n: &u64| n * n);
/// assert_eq!((squares.answer(3), squares.len()), (9, 1));
/// ```
pub struct Memo<K, V, F, L = ByLength, S = RandomState>
where
    K: Eq + Hash,
    L: Admission<K, V>,
    S: BuildHasher,
{
    memo: proved::Memo<K, V, F, Calls<L>, S>,
}

#[cfg(feature = "runtime-rng")]
impl<K: Eq + Hash, V, F: Fn(&K) -> V, L: Admission<K, V>> Memo<K, V, F, L> {
    /// Makes an empty memo of a function, with a hasher with random seeds. Cost: `O(1)`, and no memory.
    ///
    /// ```
    /// # use jeerdurian::{ByLength, caches::Memo};
    /// let squares = Memo::new(ByLength::new(9), |n: &u64| n * n);
    /// assert!(squares.is_empty());
    /// ```
    pub fn new(limiter: L, function: F) -> Self {
        Self::with_hasher(limiter, RandomState::default(), function)
    }
}

impl<K: Eq + Hash, V, F: Fn(&K) -> V, L: Admission<K, V>, S: BuildHasher> Memo<K, V, F, L, S> {
    /// Makes an empty memo of a function, with this hasher of keys. Cost: `O(1)`, and no memory.
    ///
    /// ```
    /// # use jeerdurian::{ByLength, RandomState, caches::Memo};
    /// let cubes = Memo::with_hasher(ByLength::new(9), RandomState::default(), |n: &u64| n * n * n);
    /// assert!(cubes.is_empty());
    /// ```
    pub fn with_hasher(limiter: L, hasher: S, function: F) -> Self {
        Memo { memo: proved::Memo::with_hasher(Global, Calls(limiter), hasher, function) }
    }

    /// Returns the number of stored results. Cost: `O(1)`.
    ///
    /// ```
    /// # use jeerdurian::{ByLength, caches::Memo};
    /// let mut squares = Memo::new(ByLength::new(9), |n: &u64| n * n);
    /// assert_eq!((squares.answer(3), squares.len()), (9, 1));
    /// ```
    pub fn len(&self) -> usize {
        self.memo.len()
    }

    /// Returns whether no result is stored. Cost: `O(1)`.
    ///
    /// ```
    /// # use jeerdurian::{ByLength, caches::Memo};
    /// assert!(Memo::new(ByLength::new(9), |n: &u64| n * n).is_empty());
    /// ```
    pub fn is_empty(&self) -> bool {
        self.memo.is_empty()
    }

    /// Returns the limiter.
    ///
    /// Cost: `O(1)`.
    ///
    /// ```
    /// # use jeerdurian::{ByLength, caches::Memo};
    /// let squares = Memo::new(ByLength::new(9), |n: &u64| n * n);
    /// assert_eq!(squares.limiter().max_length(), 9);
    /// ```
    pub fn limiter(&self) -> &L {
        &self.memo.limiter().0
    }

    /// Returns a clone of the stored result of a key. If there is none, calls the function, stores its result, and
    /// returns a clone of the result.
    ///
    /// If the memo runs out of memory, or a limit prevents storing the result, the result is returned anyway.
    ///
    /// Cost: a get and a clone; if no result is stored, also a call of the function and an insert.
    ///
    /// ```
    /// # use jeerdurian::{ByLength, caches::Memo};
    /// let calls = std::cell::Cell::new(0);
    /// let mut squares = Memo::new(ByLength::new(9), |n: &u64| {
    ///     calls.set(calls.get() + 1);
    ///     n * n
    /// });
    /// assert_eq!((squares.answer(3), squares.answer(3)), (9, 9));
    /// assert_eq!(calls.get(), 1);
    /// ```
    pub fn answer(&mut self, key: K) -> V
    where
        V: Clone,
    {
        self.answer_with(key, V::clone)
    }

    /// Does what [`answer`](Self::answer) does, and also returns whether it called the function.
    ///
    /// Cost: as `answer`; if no result is stored, also a second search.
    ///
    /// ```
    /// # use jeerdurian::{ByLength, caches::Memo};
    /// let mut squares = Memo::new(ByLength::new(9), |n: &u64| n * n);
    /// assert_eq!((squares.answer_full(3), squares.answer_full(3)), ((9, true), (9, false)));
    /// ```
    pub fn answer_full(&mut self, key: K) -> (V, bool)
    where
        V: Clone,
    {
        match self.get(&key) {
            Some(value) => (value, false),
            None => (self.answer(key), true),
        }
    }

    /// Does what [`answer`](Self::answer) does, but lends the result to a closure instead of cloning it, and returns
    /// what the closure returns.
    ///
    /// Cost: as `answer`, with a call of the closure instead of a clone.
    ///
    /// ```
    /// # use jeerdurian::{ByLength, caches::Memo};
    /// let mut names = Memo::new(ByLength::new(9), |n: &u64| n.to_string());
    /// assert_eq!(names.answer_with(123, |name| name.len()), 3);
    /// ```
    pub fn answer_with<R>(&mut self, key: K, read: impl FnOnce(&V) -> R) -> R {
        self.memo.answer_with(key, read)
    }

    /// Returns a clone of the stored result of a key, and makes the result the newest. Does not call the function.
    ///
    /// Cost: `O(1)` expected, and a clone.
    ///
    /// ```
    /// # use jeerdurian::{ByLength, caches::Memo};
    /// let mut lengths = Memo::new(ByLength::new(9), |text: &String| text.len());
    /// assert_eq!((lengths.get("word"), lengths.answer("word".to_string()), lengths.get("word")), (None, 4, Some(4)));
    /// ```
    pub fn get<Q>(&mut self, key: &Q) -> Option<V>
    where
        K: Borrow<Q>,
        Q: Eq + Hash + ?Sized,
        V: Clone,
    {
        self.get_with(key, V::clone)
    }

    /// Does what [`get`](Self::get) does, but lends the result to a closure instead of cloning it, and returns what the
    /// closure returns.
    ///
    /// Cost: as `get`, with a call of the closure instead of a clone.
    ///
    /// ```
    /// # use jeerdurian::{ByLength, caches::Memo};
    /// let mut names = Memo::new(ByLength::new(9), |n: &u64| n.to_string());
    /// assert_eq!((names.answer(123).len(), names.get_with(&123, |name| name.len())), (3, Some(3)));
    /// ```
    pub fn get_with<Q, R>(&mut self, key: &Q, read: impl FnOnce(&V) -> R) -> Option<R>
    where
        K: Borrow<Q>,
        Q: Eq + Hash + ?Sized,
    {
        self.memo.get_with(&Borrowed(key), read)
    }

    /// Removes the stored result of a key, and returns whether it was there. Cost: `O(1)` expected.
    ///
    /// ```
    /// # use jeerdurian::{ByLength, caches::Memo};
    /// let mut lengths = Memo::new(ByLength::new(9), |text: &String| text.len());
    /// assert!(lengths.answer("word".to_string()) == 4 && lengths.remove("word") && !lengths.remove("word"));
    /// ```
    pub fn remove<Q>(&mut self, key: &Q) -> bool
    where
        K: Borrow<Q>,
        Q: Eq + Hash + ?Sized,
    {
        self.memo.remove(&Borrowed(key))
    }

    /// Drops all stored results. Cost: as [`LruMap::clear`](crate::LruMap::clear).
    pub fn clear(&mut self) {
        self.memo.clear();
    }

    /// Sets a new limiter, and drops the oldest results while it is over its limit. Returns the old limiter.
    ///
    /// The running total of a new limiter, such as `ByCost`, must begin as the total cost of the stored results,
    /// because the limiter is not notified of them: `ByCost::new(10)` would count them as 0. `limiter().with_limit(10)`
    /// begins with the right total.
    ///
    /// Cost: `O(1)` for each result that is dropped.
    ///
    /// ```
    /// # use jeerdurian::{ByLength, caches::Memo};
    /// let mut squares = Memo::new(ByLength::new(9), |n: &u64| n * n);
    /// assert_eq!((squares.answer(3), squares.answer(4)), (9, 16));
    /// squares.set_limiter(ByLength::new(1));
    /// assert!(squares.len() == 1 && !squares.remove(&3) && squares.remove(&4));
    /// ```
    ///
    /// ```
    /// # use jeerdurian::{ByCost, caches::Memo};
    /// let mut squares = Memo::new(ByCost::new(100), |n: &u64| n * n);
    /// assert_eq!((squares.answer(3), squares.answer(4)), (9, 16));
    /// squares.set_limiter(squares.limiter().with_limit(20));
    /// assert_eq!((squares.len(), squares.limiter().cost()), (1, 16));
    /// ```
    pub fn set_limiter(&mut self, limiter: L) -> L {
        self.memo.set_limiter(Calls(limiter)).0
    }
}

/// A memo of a function that may fail, such as a read of a file. It stores no failure.
///
/// Proved: a failure stores nothing, and each value is a result of the function at an equal key, if the limiter stores
/// values unchanged. All limiters of this crate do.
///
/// ```
/// use jeerdurian::{ByLength, caches::Loader};
///
/// let disk = [10, 11, 12];
/// let mut blocks = Loader::new(ByLength::new(9), |n: &usize| disk.get(*n).copied().ok_or(*n));
/// assert_eq!((blocks.load(1), blocks.len()), (Ok(11), 1));
/// assert_eq!((blocks.load(3), blocks.len()), (Err(3), 1));
/// ```
pub struct Loader<K, V, F, L = ByLength, S = RandomState>
where
    K: Eq + Hash,
    L: Admission<K, V>,
    S: BuildHasher,
{
    loader: proved::Loader<K, V, F, Calls<L>, S>,
}

#[cfg(feature = "runtime-rng")]
impl<K: Eq + Hash, V, E, F: Fn(&K) -> Result<V, E>, L: Admission<K, V>> Loader<K, V, F, L> {
    /// Makes an empty loader that calls this function, with a hasher with random seeds. Cost: `O(1)`, and no memory.
    ///
    /// ```
    /// # use jeerdurian::{ByLength, caches::Loader};
    /// let next = Loader::new(ByLength::new(9), |n: &u64| n.checked_add(1).ok_or(*n));
    /// assert!(next.is_empty());
    /// ```
    pub fn new(limiter: L, function: F) -> Self {
        Self::with_hasher(limiter, RandomState::default(), function)
    }
}

impl<K, V, E, F, L, S> Loader<K, V, F, L, S>
where
    K: Eq + Hash,
    F: Fn(&K) -> Result<V, E>,
    L: Admission<K, V>,
    S: BuildHasher,
{
    /// Makes an empty loader that calls this function, with this hasher of keys. Cost: `O(1)`, and no memory.
    ///
    /// ```
    /// # use jeerdurian::{ByLength, RandomState, caches::Loader};
    /// let hasher = RandomState::default();
    /// let next = Loader::with_hasher(ByLength::new(9), hasher, |n: &u64| n.checked_add(1).ok_or(*n));
    /// assert!(next.is_empty());
    /// ```
    pub fn with_hasher(limiter: L, hasher: S, function: F) -> Self {
        Loader { loader: proved::Loader::with_hasher(Global, Calls(limiter), hasher, function) }
    }

    /// Returns the number of stored values. Cost: `O(1)`.
    ///
    /// ```
    /// # use jeerdurian::{ByLength, caches::Loader};
    /// let mut next = Loader::new(ByLength::new(9), |n: &u64| n.checked_add(1).ok_or(*n));
    /// assert_eq!((next.load(1), next.len()), (Ok(2), 1));
    /// ```
    pub fn len(&self) -> usize {
        self.loader.len()
    }

    /// Returns whether no value is stored. Cost: `O(1)`.
    ///
    /// ```
    /// # use jeerdurian::{ByLength, caches::Loader};
    /// assert!(Loader::new(ByLength::new(9), |n: &u64| n.checked_add(1).ok_or(*n)).is_empty());
    /// ```
    pub fn is_empty(&self) -> bool {
        self.loader.is_empty()
    }

    /// Returns a clone of the stored value of a key. If there is none, calls the function, stores its value, and
    /// returns a clone of the value, or the error.
    ///
    /// If the loader runs out of memory, or a limit prevents storing the value, the value is returned anyway.
    ///
    /// Cost: a get and a clone; if no value is stored, also a call of the function and an insert.
    ///
    /// # Errors
    ///
    /// The function failed, with this error. The stored values stay.
    ///
    /// ```
    /// # use jeerdurian::{ByLength, caches::Loader};
    /// let mut next = Loader::new(ByLength::new(9), |n: &u64| n.checked_add(1).ok_or(*n));
    /// assert_eq!((next.load(1), next.load(u64::MAX)), (Ok(2), Err(u64::MAX)));
    /// ```
    pub fn load(&mut self, key: K) -> Result<V, E>
    where
        V: Clone,
    {
        self.load_with(key, V::clone)
    }

    /// Does what [`load`](Self::load) does, but lends the value to a closure instead of cloning it, and returns what
    /// the closure returns.
    ///
    /// Cost: as `load`, with a call of the closure instead of a clone.
    ///
    /// # Errors
    ///
    /// The function failed, with this error. The closure is not called, and the stored values stay.
    ///
    /// ```
    /// # use jeerdurian::{ByLength, caches::Loader};
    /// let mut texts = Loader::new(ByLength::new(9), |name: &String| std::fs::read_to_string(name));
    /// let len = texts.load_with("Cargo.toml".to_string(), |text| text.len()).unwrap_or(0);
    /// assert_eq!((len > 0, texts.len()), (true, 1));
    /// ```
    pub fn load_with<R>(&mut self, key: K, read: impl FnOnce(&V) -> R) -> Result<R, E> {
        self.loader.load_with(key, read)
    }

    /// Removes the stored value of a key, and returns whether it was there. The next [`load`](Self::load) of the key
    /// calls the function. Cost: `O(1)` expected.
    ///
    /// ```
    /// # use jeerdurian::{ByLength, caches::Loader};
    /// let mut next = Loader::new(ByLength::new(9), |n: &u64| n.checked_add(1).ok_or(*n));
    /// assert!(next.load(1) == Ok(2) && next.remove(&1) && !next.remove(&1));
    /// ```
    pub fn remove<Q>(&mut self, key: &Q) -> bool
    where
        K: Borrow<Q>,
        Q: Eq + Hash + ?Sized,
    {
        self.loader.remove(&Borrowed(key))
    }

    /// Drops all stored values. Cost: as [`LruMap::clear`](crate::LruMap::clear).
    ///
    /// ```
    /// # use jeerdurian::{ByLength, caches::Loader};
    /// let mut next = Loader::new(ByLength::new(9), |n: &u64| n.checked_add(1).ok_or(*n));
    /// assert_eq!((next.load(1), next.clear(), next.len()), (Ok(2), (), 0));
    /// ```
    pub fn clear(&mut self) {
        self.loader.clear();
    }
}
