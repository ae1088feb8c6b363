//! The bits of a cell of W bytes. A cell is read and written as one number, with its first byte as the lowest.

/// The bits of own and control.
pub const OWN: usize = 0;
pub const CONTROL: usize = 1;

/// The bit of basic right k, plain (form 0) or starred (form 1).
#[inline(always)]
pub fn basic(k: usize, form: usize) -> usize {
    2 + 2 * k + form
}

/// The number of a cell.
#[inline(always)]
pub fn number<const W: usize>(cell: [u8; W]) -> u32 {
    let mut bytes = [0; 4];
    bytes[..W].copy_from_slice(&cell);
    u32::from_le_bytes(bytes)
}

/// The cell of a number.
#[inline(always)]
fn cell<const W: usize>(number: u32) -> [u8; W] {
    *number
        .to_le_bytes()
        .first_chunk()
        .expect("a cell has at most four bytes")
}

/// The number of a cell that has the bits of a mask, in which the lowest bit is own.
#[inline(always)]
pub fn bits<const W: usize>(mask: u32) -> u32 {
    mask.swap_bytes() >> (32 - 8 * W)
}

/// The number of a cell that has one bit.
#[inline(always)]
pub fn bit<const W: usize>(bit: usize) -> u32 {
    bits::<W>(1 << bit)
}

/// Whether a cell has a bit.
#[inline(always)]
pub fn has<const W: usize>(of: [u8; W], this: usize) -> bool {
    number(of) & bit::<W>(this) != 0
}

/// Sets a bit.
#[inline(always)]
pub fn set<const W: usize>(of: &mut [u8; W], this: usize) {
    *of = cell(number(*of) | bit::<W>(this));
}

/// Clears a bit.
#[inline(always)]
pub fn clear<const W: usize>(of: &mut [u8; W], this: usize) {
    *of = cell(number(*of) & !bit::<W>(this));
}

/// A cell with a bit of another.
#[inline(always)]
pub fn joined<const W: usize>(of: [u8; W], with: [u8; W], this: usize) -> [u8; W] {
    cell(number(of) | number(with) & bit::<W>(this))
}

/// Own of all cells in a word of 64 bits that begins with a cell and is read with its first byte as the lowest.
pub const fn own_in_word<const W: usize>() -> u64 {
    if W == 2 {
        0x0100_0100_0100_0100
    } else {
        0x0100_0000_0100_0000
    }
}
