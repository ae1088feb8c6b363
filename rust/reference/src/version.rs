//! The versions of the record (Manual 2). They differ in the width of a cell, and all else in which they differ
//! follows from it: the codes and the basic rights there are, and the length of a record.

use crate::rights::{Cell, Right};

/// A version of the record.
#[derive(Clone, Copy, Debug, PartialEq, Eq, PartialOrd, Ord, Hash)]
pub enum Version {
    One,
    Two,
}

impl Version {
    /// Every version there is.
    pub const ALL: [Version; 2] = [Version::One, Version::Two];

    /// The version with this byte 0; none where it is unknown.
    pub fn from_byte(byte: u8) -> Option<Version> {
        Version::ALL.into_iter().find(|v| v.byte() == byte)
    }

    /// Byte 0 of a record of this version.
    pub fn byte(self) -> u8 {
        match self {
            Version::One => 1,
            Version::Two => 2,
        }
    }

    /// The width of a cell in bytes.
    pub fn cell_bytes(self) -> usize {
        match self {
            Version::One => 2,
            Version::Two => 4,
        }
    }

    /// The width of a cell in bits. The codes of the rights are the numbers below it.
    fn cell_bits(self) -> u64 {
        8 * self.cell_bytes() as u64
    }

    /// How many basic rights there are: own and control have a bit each, and each basic right has two.
    pub fn basic_rights(self) -> u64 {
        (self.cell_bits() - 2) / 2
    }

    /// The right of a code; none where a cell has no bit of that number.
    pub fn right(self, code: u64) -> Option<Right> {
        Right::from_code(code).filter(|_| code < self.cell_bits())
    }

    /// Whether a cell of this version has room for every bit that is set in the given one.
    pub fn has_room(self, cell: Cell) -> bool {
        u64::from(cell.0) >> self.cell_bits() == 0
    }

    /// L of a record of n subject names and p plain names: bytes 5 and 6, and the cells.
    pub fn count_after_byte_4(self, n: u64, p: u64) -> u64 {
        2 + self.cell_bytes() as u64 * n * (n + p)
    }

    /// The length of a record of n subject names and p plain names: bytes 0 to 4, and L after them.
    pub fn record_length(self, n: u64, p: u64) -> usize {
        5 + self.count_after_byte_4(n, p) as usize
    }
}
