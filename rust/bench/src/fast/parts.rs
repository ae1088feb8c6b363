//! Bytes taken as lanes.

use super::lanes::LANE;

/// The bytes of N lanes.
pub type Part<const N: usize> = [[u8; LANE]; N];

/// The N lanes from a place on.
#[inline(always)]
pub fn part<const N: usize>(bytes: &[u8], at: usize) -> &Part<N> {
    let lanes = bytes[at..at + N * LANE].as_chunks().0;
    lanes.first_chunk().expect("the slice has N lanes")
}
