// Erased from crates/rows/src/limiters.rt: do not edit.
//! Limiters that a row can name.
#[allow(unused_imports)]
use crate::rattle_std::prelude::*;

use crate::erased::lru_limits::{ByCost, ByLength, ByMemoryUsage, LinkType, Storing, Unlimited, UnlimitedCompact};
use crate::programs::test_helpers::{Alternating, Blanking, LinkedBy};
use crate::rattle_std::marker::PhantomData;

/// A limiter that is made from a number. `number_of` finds the number in the words of the limiter.
pub trait Numbered: Sized {
    fn of(number: u64) -> Self;
}

/// Returns the number that these words of a limiter mean. Words that are not listed here mean the number at their end,
/// or 0.
pub fn number_of(words: &str) -> u64 {
    match words {
        "no growth at first" | "blank values" => 0,
        "growth at first" | "blank pairs" => 1,
        "over the limit" => 2,
        _ => {
            let (_, number) = words.rsplit_once(' ').unwrap_or(("", "0"));
            number.parse().unwrap_or(0)
        }
    }
}

impl Numbered for ByLength {
    fn of(number: u64) -> ByLength {
        ByLength::new(u32::try_from(number).unwrap_or(0))
    }
}

impl Numbered for ByMemoryUsage {
    fn of(number: u64) -> ByMemoryUsage {
        ByMemoryUsage::new(number as usize)
    }
}

impl Numbered for ByCost {
    fn of(number: u64) -> ByCost {
        ByCost::new(number)
    }
}

impl Numbered for Unlimited {
    fn of(_number: u64) -> Unlimited {
        Unlimited
    }
}

impl Numbered for UnlimitedCompact {
    fn of(_number: u64) -> UnlimitedCompact {
        UnlimitedCompact
    }
}

impl<N: LinkType> Numbered for Storing<LinkedBy<N>> {
    fn of(_number: u64) -> Storing<LinkedBy<N>> {
        Storing(LinkedBy(PhantomData))
    }
}

impl Numbered for Storing<Alternating> {
    fn of(number: u64) -> Storing<Alternating> {
        Storing(Alternating::new(number == 2, number > 0))
    }
}

impl Numbered for Storing<Blanking> {
    fn of(number: u64) -> Storing<Blanking> {
        Storing(Blanking { keys: number == 1, last: (0, 0) })
    }
}
