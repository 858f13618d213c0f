// Erased from crates/lru_trace/src/curves.rt: do not edit.
//! A curve of entries or of bytes.

#[allow(unused_imports)]
use crate::rattle_std::prelude::*;

use crate::erased::lru_trace::best::Best;
use crate::erased::lru_trace::byte_curve::{ByteCurve, SizeError};
use crate::erased::lru_trace::curve::Curve;
use crate::erased::lru_trace::delete_curve::DeleteCurve;
use crate::erased::lru_trace::options::Measure;
use crate::rattle_std::alloc::AllocError;

/// A curve for sizes in bytes, or for sizes in entries, with or without deletes.

pub enum AnyCurve {
    Places(Curve),
    Deletes(DeleteCurve),
    Bytes(ByteCurve),
}

impl AnyCurve {
    fn warm_up(&mut self, key: &str, size: u64) -> Result<(), SizeError> {
        match self {
            AnyCurve::Places(curve) => Ok(curve.warm_up(key)?),
            AnyCurve::Deletes(curve) if size == 0 => Ok(curve.delete(key)?),
            AnyCurve::Deletes(curve) => Ok(curve.warm_up(key)?),
            AnyCurve::Bytes(curve) => curve.warm_up(key, size),
        }
    }

    fn count(&mut self, key: &str, size: u64) -> Result<(), SizeError> {
        match self {
            AnyCurve::Places(curve) => Ok(curve.refer(key)?),
            AnyCurve::Deletes(curve) if size == 0 => Ok(curve.delete(key)?),
            AnyCurve::Deletes(curve) => Ok(curve.refer(key)?),
            AnyCurve::Bytes(curve) => curve.refer(key, size),
        }
    }

    /// References a key, and counts the reference unless `warm` is true. With deletes, the size 0 deletes the key.
    pub(crate) fn refer(&mut self, warm: bool, key: &str, size: u64) -> Result<(), SizeError> {
        if warm {
            return self.warm_up(key, size);
        }
        self.count(key, size)
    }

    pub(crate) fn measure(&self) -> Measure {
        match self {
            AnyCurve::Places(_) => Measure::Places,
            AnyCurve::Deletes(_) => Measure::PlacesWithDeletes,
            AnyCurve::Bytes(_) => Measure::Bytes,
        }
    }

    pub(crate) fn references(&self) -> u64 {
        match self {
            AnyCurve::Places(curve) => curve.references(),
            AnyCurve::Deletes(curve) => curve.references(),
            AnyCurve::Bytes(curve) => curve.references(),
        }
    }

    pub(crate) fn keys(&self) -> usize {
        match self {
            AnyCurve::Places(curve) => curve.keys(),
            AnyCurve::Deletes(curve) => curve.places(),
            AnyCurve::Bytes(curve) => curve.keys(),
        }
    }

    /// Returns the size of a cache that can contain all keys.
    pub(crate) fn needed(&self) -> usize {
        match self {
            AnyCurve::Places(curve) => curve.keys(),
            AnyCurve::Deletes(curve) => curve.places(),
            AnyCurve::Bytes(curve) => curve.bytes() as usize,
        }
    }

    pub(crate) fn misses(&self, size: usize) -> u64 {
        match self {
            AnyCurve::Places(curve) => curve.misses(size),
            AnyCurve::Deletes(curve) => curve.misses(size),
            AnyCurve::Bytes(curve) => curve.misses(size as u64).unwrap_or(0),
        }
    }

    pub(crate) fn best(&self) -> Result<Option<Best>, AllocError> {
        match self {
            AnyCurve::Places(curve) => curve.best(),
            AnyCurve::Deletes(_) | AnyCurve::Bytes(_) => Ok(None),
        }
    }
}
