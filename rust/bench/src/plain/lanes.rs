//! Lanes of one byte. The loops over the lanes of a block are those that LLVM vectorises, 16 bytes at once on the default target.
//!
//! Tried and much slower: lanes `[u8; 16]` with a loop in each operation, lanes of 16 or 32 bits, and a test that joins bytes of a block before
//! the last block, all of which LLVM takes apart.

use std::ops::{Add, BitAnd, BitOr, BitOrAssign, BitXor, Sub};

/// The bytes of a lane.
pub const LANE: usize = 1;

/// The lanes of sixteen bytes.
pub const BLOCK: usize = 16;

/// A byte of a row, or of what is found over several rows.
#[derive(Clone, Copy)]
pub struct Lane(u8);

impl Lane {
    /// The same byte everywhere.
    #[inline(always)]
    pub fn every(byte: u8) -> Lane {
        Lane(byte)
    }

    /// The lane of a byte.
    #[inline(always)]
    pub fn of(bytes: &[u8; LANE]) -> Lane {
        Lane(bytes[0])
    }

    /// Writes the lane as a byte.
    #[inline(always)]
    pub fn store(self, bytes: &mut [u8; LANE]) {
        bytes[0] = self.0;
    }

    /// All bits where this byte is at least another, else none.
    #[inline(always)]
    pub fn at_least(self, other: Lane) -> Lane {
        Lane(if self.0 >= other.0 { 255 } else { 0 })
    }
}

impl BitOr for Lane {
    type Output = Lane;
    #[inline(always)]
    fn bitor(self, other: Lane) -> Lane {
        Lane(self.0 | other.0)
    }
}

impl BitOrAssign for Lane {
    #[inline(always)]
    fn bitor_assign(&mut self, other: Lane) {
        *self = *self | other;
    }
}

impl BitAnd for Lane {
    type Output = Lane;
    #[inline(always)]
    fn bitand(self, other: Lane) -> Lane {
        Lane(self.0 & other.0)
    }
}

impl BitXor for Lane {
    type Output = Lane;
    #[inline(always)]
    fn bitxor(self, other: Lane) -> Lane {
        Lane(self.0 ^ other.0)
    }
}

impl Add for Lane {
    type Output = Lane;
    #[inline(always)]
    fn add(self, other: Lane) -> Lane {
        Lane(self.0.wrapping_add(other.0))
    }
}

impl Sub for Lane {
    type Output = Lane;
    #[inline(always)]
    fn sub(self, other: Lane) -> Lane {
        Lane(self.0.wrapping_sub(other.0))
    }
}
