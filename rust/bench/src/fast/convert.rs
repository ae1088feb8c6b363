//! The conversions of a record to another version.

use super::cell::number;
use super::plains::seen_below;
use super::scan::{FIRST, Rows, scan};
use super::tables::Keep;
use super::wide;

/// The bits of basic rights above 6 in a cell of four bytes that is read with its first byte as the lowest.
const HIGH: u32 = 0xFFFF;

/// The bits that are set in some cell of the plain columns.
struct Bits(u32);

impl Keep for Bits {
    #[inline(always)]
    fn plain<const W: usize>(&mut self, _: usize, seen: &[[u8; W]]) {
        self.0 |= seen.iter().fold(0, |any, cell| any | number(*cell));
    }
}

/// The record in version 1: the refusal, and the bytes of the new record.
pub fn to_version_1(record: &[u8], out: &mut [u8]) -> (u64, u64) {
    if !wide(record) {
        return copied::<2>(record, out);
    }
    let mut bits = Bits(0);
    let rows = match scan::<4, _>(record, &mut bits) {
        Ok(rows) => rows,
        Err(refusal) => return (refusal, 0),
    };
    if (bits.0 | seen_below::<4>(rows, rows.n)) & HIGH != 0 {
        return (18, 0);
    }
    let narrowed = |cell| ((u32::from_le_bytes(cell) >> 16) as u16).to_le_bytes();
    converted::<4, 2>(record, rows, out, narrowed)
}

/// The record in version 2: the refusal, and the bytes of the new record.
pub fn to_version_2(record: &[u8], out: &mut [u8]) -> (u64, u64) {
    if wide(record) {
        return copied::<4>(record, out);
    }
    let rows = match scan::<2, _>(record, &mut ()) {
        Ok(rows) => rows,
        Err(refusal) => return (refusal, 0),
    };
    let widened = |cell| (u32::from(u16::from_le_bytes(cell)) << 16).to_le_bytes();
    converted::<2, 4>(record, rows, out, widened)
}

/// A record that is of the wanted version, copied.
#[inline(always)]
fn copied<const W: usize>(record: &[u8], out: &mut [u8]) -> (u64, u64) {
    if let Err(refusal) = scan::<W, _>(record, &mut ()) {
        return (refusal, 0);
    }
    match out.get_mut(..record.len()) {
        Some(out) => out.copy_from_slice(record),
        None => return (15, 0),
    }
    (0, record.len() as u64)
}

/// A record with cells of A bytes, written with cells of B bytes.
#[inline(always)]
fn converted<const A: usize, const B: usize>(
    record: &[u8],
    rows: Rows,
    out: &mut [u8],
    cell: impl Fn([u8; A]) -> [u8; B],
) -> (u64, u64) {
    let bytes = rows.cells.len() / A * B;
    let Some((head, cells)) = out.split_at_mut_checked(FIRST) else {
        return (15, 0);
    };
    let Some(cells) = cells.get_mut(..bytes) else {
        return (15, 0);
    };
    head[0] = B as u8 / 2;
    head[1..5].copy_from_slice(&(bytes as u32 + 2).to_be_bytes());
    head[5..].copy_from_slice(&record[5..FIRST]);
    let from = rows.cells.as_chunks().0;
    for (to, from) in cells.as_chunks_mut().0.iter_mut().zip(from) {
        *to = cell(*from);
    }
    (0, (FIRST + bytes) as u64)
}
