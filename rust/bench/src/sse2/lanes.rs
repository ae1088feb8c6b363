//! Lanes of 16 bytes, each a vector register. SSE2, which every x86-64 has and the default target uses.

use std::arch::x86_64::{
    __m128i, _mm_add_epi8, _mm_and_si128, _mm_cmpeq_epi8, _mm_loadu_si128, _mm_max_epu8,
    _mm_or_si128, _mm_set1_epi8, _mm_storeu_si128, _mm_sub_epi8, _mm_xor_si128,
};
use std::ops::{Add, BitAnd, BitOr, BitOrAssign, BitXor, Sub};

/// The bytes of a lane.
pub const LANE: usize = 16;

/// The lanes of sixteen bytes.
pub const BLOCK: usize = 1;

/// Neighbouring bytes of a row, or of what is found over several rows.
#[derive(Clone, Copy)]
pub struct Lane(__m128i);

impl Lane {
    /// The same byte everywhere.
    #[inline(always)]
    pub fn every(byte: u8) -> Lane {
        // SAFETY: every x86-64 has SSE2.
        Lane(unsafe { _mm_set1_epi8(byte as i8) })
    }

    /// The lane of 16 bytes.
    #[inline(always)]
    pub fn of(bytes: &[u8; LANE]) -> Lane {
        // SAFETY: there are 16 bytes.
        Lane(unsafe { _mm_loadu_si128(bytes.as_ptr().cast()) })
    }

    /// Writes the lane as 16 bytes.
    #[inline(always)]
    pub fn store(self, bytes: &mut [u8; LANE]) {
        // SAFETY: there are 16 bytes.
        unsafe { _mm_storeu_si128(bytes.as_mut_ptr().cast(), self.0) }
    }

    /// All bits of the bytes that are at least those of another, and none of the other bytes.
    #[inline(always)]
    pub fn at_least(self, other: Lane) -> Lane {
        // SAFETY: as above.
        Lane(unsafe { _mm_cmpeq_epi8(_mm_max_epu8(self.0, other.0), self.0) })
    }
}

impl BitOr for Lane {
    type Output = Lane;
    #[inline(always)]
    fn bitor(self, other: Lane) -> Lane {
        // SAFETY: every x86-64 has SSE2.
        Lane(unsafe { _mm_or_si128(self.0, other.0) })
    }
}

impl BitOrAssign for Lane {
    #[inline(always)]
    fn bitor_assign(&mut self, other: Lane) {
        *self = *self | other;
    }
}

impl BitAnd for Lane {
    type Output = Lane;
    #[inline(always)]
    fn bitand(self, other: Lane) -> Lane {
        // SAFETY: every x86-64 has SSE2.
        Lane(unsafe { _mm_and_si128(self.0, other.0) })
    }
}

impl BitXor for Lane {
    type Output = Lane;
    #[inline(always)]
    fn bitxor(self, other: Lane) -> Lane {
        // SAFETY: every x86-64 has SSE2.
        Lane(unsafe { _mm_xor_si128(self.0, other.0) })
    }
}

/// The sum of each byte.
impl Add for Lane {
    type Output = Lane;
    #[inline(always)]
    fn add(self, other: Lane) -> Lane {
        // SAFETY: every x86-64 has SSE2.
        Lane(unsafe { _mm_add_epi8(self.0, other.0) })
    }
}

/// The difference of each byte.
impl Sub for Lane {
    type Output = Lane;
    #[inline(always)]
    fn sub(self, other: Lane) -> Lane {
        // SAFETY: every x86-64 has SSE2.
        Lane(unsafe { _mm_sub_epi8(self.0, other.0) })
    }
}
