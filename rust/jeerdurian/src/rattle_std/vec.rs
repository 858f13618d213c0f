//! A vector whose growth may fail.

use super::alloc::{AllocError, Global};
use super::prelude::prove;
use core::ops::{Deref, DerefMut};

/// Rust's `Vec`, but each call that asks for memory returns a `Result`.
#[derive(Debug)]
pub struct Vec<T>(::alloc::vec::Vec<T>);

impl<T> Vec<T> {
    pub const fn new(_: Global) -> Self {
        Vec(::alloc::vec::Vec::new())
    }

    pub fn with_capacity(_: Global, n: usize) -> Result<Self, AllocError> {
        let mut items = ::alloc::vec::Vec::new();
        items.try_reserve_exact(n).map_err(|_| AllocError)?;
        Ok(Vec(items))
    }

    /// What `vec![in alloc; item; n]` makes.
    pub fn filled(alloc: Global, item: T, n: usize) -> Result<Self, AllocError>
    where
        T: Clone,
    {
        let mut items = Self::with_capacity(alloc, n)?;
        items.0.resize(n, item);
        Ok(items)
    }

    pub fn from_slice(alloc: Global, items: &[T]) -> Result<Self, AllocError>
    where
        T: Copy,
    {
        let mut copy = Self::with_capacity(alloc, items.len())?;
        copy.0.extend_from_slice(items);
        Ok(copy)
    }

    /// Adds an item.
    pub fn push(&mut self, item: T) -> Result<(), AllocError> {
        self.0.try_reserve(1).map_err(|_| AllocError)?;
        self.0.push(item);
        Ok(())
    }

    /// Adds an item in front of the item `at`.
    pub fn insert(&mut self, at: usize, item: T) -> Result<(), AllocError> {
        self.0.try_reserve(1).map_err(|_| AllocError)?;
        self.0.insert(at, item);
        Ok(())
    }

    /// Adds copies of the items.
    pub fn extend_from_slice(&mut self, items: &[T]) -> Result<(), AllocError>
    where
        T: Copy,
    {
        self.0.try_reserve(items.len()).map_err(|_| AllocError)?;
        self.0.extend_from_slice(items);
        Ok(())
    }

    /// Reserves memory for n more items.
    pub fn reserve(&mut self, n: usize) -> Result<(), AllocError> {
        self.0.try_reserve(n).map_err(|_| AllocError)
    }

    pub fn truncate(&mut self, n: usize) {
        self.0.truncate(n);
    }

    /// Adds an item without a growth: there is memory for it.
    #[inline]
    pub fn push_reserved(&mut self, item: T) {
        let n = self.0.len();
        prove!(n < self.0.capacity(), "a push without memory");
        // SAFETY: there is memory behind the last item, as the contract of each caller requires.
        unsafe {
            self.0.as_mut_ptr().add(n).write(item);
            self.0.set_len(n + 1);
        }
    }

    #[inline]
    pub fn pop(&mut self) -> Option<T> {
        self.0.pop()
    }

    pub fn clear(&mut self) {
        self.0.clear();
    }

    pub fn capacity(&self) -> usize {
        self.0.capacity()
    }

    pub fn as_slice(&self) -> &[T] {
        &self.0
    }

    pub fn as_mut_slice(&mut self) -> &mut [T] {
        &mut self.0
    }

    /// Rust's vector inside.
    pub fn as_std_mut(&mut self) -> &mut ::alloc::vec::Vec<T> {
        &mut self.0
    }

    /// Rust's vector of the same items.
    pub fn into_std(self) -> ::alloc::vec::Vec<T> {
        self.0
    }
}

impl<T> Deref for Vec<T> {
    type Target = [T];

    #[inline]
    fn deref(&self) -> &[T] {
        &self.0
    }
}

impl<T> DerefMut for Vec<T> {
    #[inline]
    fn deref_mut(&mut self) -> &mut [T] {
        &mut self.0
    }
}

impl<T> IntoIterator for Vec<T> {
    type Item = T;
    type IntoIter = ::alloc::vec::IntoIter<T>;

    fn into_iter(self) -> Self::IntoIter {
        self.0.into_iter()
    }
}

impl<'a, T> IntoIterator for &'a Vec<T> {
    type Item = &'a T;
    type IntoIter = core::slice::Iter<'a, T>;

    fn into_iter(self) -> Self::IntoIter {
        self.0.iter()
    }
}
