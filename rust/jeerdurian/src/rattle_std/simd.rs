//! Sixteen bytes, compared at once: by SSE2, or as two words on machines without SSE2.

pub mod prelude {
    pub use super::u8x16;
}

#[allow(non_camel_case_types)]
#[derive(Clone, Copy)]
#[repr(transparent)]
pub struct u8x16([u8; 16]);

/// Which of the sixteen lanes a comparison found: bit i is lane i.
#[derive(Clone, Copy)]
pub struct Mask(u16);

impl Mask {
    #[inline(always)]
    pub fn to_bitmask(self) -> u64 {
        u64::from(self.0)
    }
}

impl u8x16 {
    #[inline(always)]
    pub fn from_array(lanes: [u8; 16]) -> Self {
        u8x16(lanes)
    }

    /// The first sixteen bytes, which are proved to be there.
    #[inline(always)]
    pub fn from_slice(bytes: &[u8]) -> Self {
        if cfg!(any(debug_assertions, feature = "checked")) {
            assert!(bytes.len() >= 16);
        }
        // SAFETY: a group of control bytes begins at most at the last bucket, whose byte is followed by 16 bytes.
        u8x16(unsafe { *bytes.as_ptr().cast() })
    }

    #[inline(always)]
    pub fn splat(byte: u8) -> Self {
        u8x16([byte; 16])
    }

    #[inline(always)]
    pub fn to_array(self) -> [u8; 16] {
        self.0
    }

    #[inline(always)]
    pub fn simd_lt(self, other: Self) -> Mask {
        Mask(!self.simd_ge(other).0)
    }
}

#[cfg(all(target_arch = "x86_64", not(portable_lanes)))]
impl u8x16 {
    #[inline(always)]
    fn vector(self) -> core::arch::x86_64::__m128i {
        // SAFETY: both are sixteen bytes of any value.
        unsafe { core::mem::transmute(self.0) }
    }

    #[inline(always)]
    pub fn simd_eq(self, other: Self) -> Mask {
        use core::arch::x86_64::{_mm_cmpeq_epi8, _mm_movemask_epi8};
        // SAFETY: each x86-64 has SSE2.
        Mask(unsafe { _mm_movemask_epi8(_mm_cmpeq_epi8(self.vector(), other.vector())) } as u16)
    }

    /// a >= b if and only if the greater of both is a.
    #[inline(always)]
    pub fn simd_ge(self, other: Self) -> Mask {
        use core::arch::x86_64::{_mm_cmpeq_epi8, _mm_max_epu8, _mm_movemask_epi8};
        // SAFETY: each x86-64 has SSE2.
        Mask(unsafe {
            let greater = _mm_max_epu8(self.vector(), other.vector());
            _mm_movemask_epi8(_mm_cmpeq_epi8(greater, self.vector()))
        } as u16)
    }
}

#[cfg(not(all(target_arch = "x86_64", not(portable_lanes))))]
impl u8x16 {
    #[inline(always)]
    pub fn simd_eq(self, other: Self) -> Mask {
        // The top bit of each byte that is zero. No byte carries into the next one.
        self.by_words(other, |a, b| {
            let x = a ^ b;
            !(((x & !TOPS) + !TOPS) | x)
        })
    }

    #[inline(always)]
    pub fn simd_ge(self, other: Self) -> Mask {
        // If the top bits of two bytes differ, they decide. Otherwise the lower bits decide: their difference keeps the
        // borrowed top bit if it is not negative.
        self.by_words(other, |a, b| (a & !b) | (!(a ^ b) & ((a | TOPS) - (b & !TOPS))))
    }

    /// Compares eight bytes at once: `f` sets the top bit of each byte for which the comparison holds.
    #[inline(always)]
    fn by_words(self, other: Self, f: impl Fn(u64, u64) -> u64) -> Mask {
        let (a, b) = (u128::from_le_bytes(self.0), u128::from_le_bytes(other.0));
        // Bit 56 + i of the product is the top bit of byte i. The terms of the product overlap in no bit, so nothing is
        // carried.
        let gathered = |found: u64| (((found & TOPS) >> 7).wrapping_mul(0x0102_0408_1020_4080) >> 56) as u16;
        let high = gathered(f((a >> 64) as u64, (b >> 64) as u64));
        Mask(gathered(f(a as u64, b as u64)) | high << 8)
    }
}

/// The top bit of each byte.
#[cfg(not(all(target_arch = "x86_64", not(portable_lanes))))]
const TOPS: u64 = 0x8080_8080_8080_8080;

#[cfg(test)]
mod tests {
    use super::u8x16;

    /// Tests each comparison against a plain loop, for each tag, with groups of random bytes and of bytes near the tag.
    #[test]
    fn comparisons_are_those_of_a_loop() {
        let mut random = 1u64;
        let mut next = || {
            random = random.wrapping_mul(6364136223846793005).wrapping_add(1442695040888963407);
            (random >> 33) as u8
        };
        for tag in 0..=255u8 {
            for round in 0..400 {
                let lanes: [u8; 16] = core::array::from_fn(|_| match round % 4 {
                    0 => next(),
                    1 => tag.wrapping_add(next() % 3).wrapping_sub(1),
                    2 => tag ^ (next() & 0x80),
                    _ => [tag, 0, 127, 128, 255][usize::from(next() % 5)],
                });
                let (group, splat) = (u8x16::from_array(lanes), u8x16::splat(tag));
                let by_loop =
                    |holds: fn(u8, u8) -> bool| (0..16).fold(0, |mask, i| mask | u64::from(holds(lanes[i], tag)) << i);
                assert_eq!(group.simd_eq(splat).to_bitmask(), by_loop(|a, b| a == b), "{lanes:?} {tag}");
                assert_eq!(group.simd_ge(splat).to_bitmask(), by_loop(|a, b| a >= b), "{lanes:?} {tag}");
                assert_eq!(group.simd_lt(splat).to_bitmask() & 0xffff, by_loop(|a, b| a < b), "{lanes:?} {tag}");
            }
        }
    }
}
