// Erased from crates/lru_trace/src/rows.rt: do not edit.
#[allow(unused_imports)]
use crate::rattle_std::prelude::*;

use crate::erased::lru_trace::best::Best;
use crate::erased::lru_trace::curves::AnyCurve;
use crate::erased::lru_trace::options::Measure;
use crate::rattle_std::alloc::{AllocError, Global};

/// What the head of a report says about a trace.
#[derive(Clone, Copy)]
pub struct Counts {
    pub measure: Measure,
    pub references: u64,
    pub keys: usize,
    pub malformed: u64,
    pub skipped: Option<u64>,
}

/// The misses of MIN, and of MIN with bypass.
#[derive(Clone, Copy)]
pub struct BestMisses {
    pub min: usize,
    pub bypass: usize,
}

/// The expected number of references in the sample, and the number of misses in a cache of this size.
#[derive(Clone, Copy)]
pub struct Row {
    pub size: usize,
    pub expected: u128,
    pub misses: u64,
    pub best: Option<BestMisses>,
}

pub fn expected_of(bits: u32, counts: Counts) -> u128 {
    (u128::from(counts.references) + u128::from(counts.skipped.unwrap_or(0))) >> bits
}

pub fn missed_part(missed: u64, expected: u128, scale: u64) -> u64 {
    let references = u128::from(missed).max(expected);
    if references == 0 {
        return 0;
    }
    let whole = u128::from(missed) * u128::from(scale) / references;
    whole as u64
}

fn best_in(best: &Option<Best>, size: usize) -> Result<Option<BestMisses>, AllocError> {
    let Some(best) = best else {
        return Ok(None);
    };
    let (min, bypass) = (best.min_misses(size)?, best.bypass_misses(size)?);
    Ok(Some(BestMisses { min, bypass }))
}

fn row_of(curve: &AnyCurve, best: &Option<Best>, bits: u32, expected: u128, size: usize) -> Result<Row, AllocError> {
    let scaled = size >> bits;
    let misses = curve.misses(scaled);
    let best = best_in(best, scaled)?;
    Ok(Row { size, expected, misses, best })
}

pub fn rows_of(
    alloc: Global,
    curve: &AnyCurve,
    best: &Option<Best>,
    bits: u32,
    expected: u128,
    sizes: &[usize],
) -> Result<Vec<Row>, AllocError> {
    let mut rows = Vec::new(alloc);
    for size in sizes {
        rows.push(row_of(curve, best, bits, expected, *size)?)?;
    }
    Ok(rows)
}

/// Returns the size that the axis must reach. The axis ends at the first power of two that is at least this size.
pub fn end_of(needed: usize, bits: u32) -> u128 {
    (needed.max(1) as u128) << bits
}

pub fn powers(alloc: Global, most: u128) -> Result<Vec<usize>, AllocError> {
    let mut powers = Vec::new(alloc);
    for level in 0..usize::BITS {
        let power = 1_usize << level;
        powers.push(power)?;
        if most <= power as u128 {
            return Ok(powers);
        }
    }
    Ok(powers)
}

pub fn powers_in(axis: &[usize], bits: u32) -> &[usize] {
    &(*at!(axis, axis.len().min(bits as usize)..))
}

fn add_point(points: &mut Vec<usize>, size: usize) -> Result<(), AllocError> {
    for at in 0..points.len() {
        if (*at!(points, at)) == size {
            return Ok(());
        }
        if (*at!(points, at)) > size {
            let Ok(_) = points.insert(at, size) else {
                return Err(AllocError);
            };
            return Ok(());
        }
    }
    points.push(size)?;
    Ok(())
}

fn add_points(points: &mut Vec<usize>, sizes: &[usize]) -> Result<(), AllocError> {
    for size in sizes {
        add_point(points, *size)?;
    }
    Ok(())
}

pub fn points(alloc: Global, sizes: &[usize], powers: &[usize]) -> Result<Vec<usize>, AllocError> {
    let mut points = Vec::new(alloc);
    add_points(&mut points, powers)?;
    add_points(&mut points, sizes)?;
    Ok(points)
}
