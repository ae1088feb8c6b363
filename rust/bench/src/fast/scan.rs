//! The refusals 1 to 5 of a record.

use super::absent::existing;
use super::plains::plains_fit;
use super::small::small_fits;
use super::subjects::{AT_ONCE, subjects_fit};
use super::tables::{Keep, PLAIN, SUBJECTS};

/// The place of the first cell.
pub const FIRST: usize = 7;

/// The rows of a record with the right length.
#[derive(Clone, Copy)]
pub struct Rows<'a> {
    pub cells: &'a [u8],
    pub n: usize,
    /// The bytes of a row.
    pub width: usize,
}

/// The rows of a record with cells of W bytes, or its refusal, 1 to 4.
#[inline(always)]
fn rows<const W: usize>(record: &[u8]) -> Result<Rows<'_>, u64> {
    let Some((head, cells)) = record.split_at_checked(FIRST) else {
        return Err(1);
    };
    if head[0] as usize != W / 2 {
        return Err(2);
    }
    let (n, p) = (head[5] as usize, head[6] as usize);
    if !(1..=SUBJECTS).contains(&n) || p > PLAIN {
        return Err(3);
    }
    let width = W * (n + p);
    let length = u32::from_be_bytes([head[1], head[2], head[3], head[4]]);
    if length as usize != 2 + n * width || cells.len() != n * width {
        return Err(4);
    }
    Ok(Rows { cells, n, width })
}

/// The rows of a valid record with cells of W bytes, or its refusal, 1 to 5.
#[inline(always)]
pub fn scan<'a, const W: usize, K: Keep>(record: &'a [u8], keep: &mut K) -> Result<Rows<'a>, u64> {
    let rows = rows::<W>(record)?;
    let Rows { cells, n, width } = rows;
    let fits = if width < AT_ONCE * W {
        small_fits::<W, K>(cells, n, width, keep)
    } else {
        fits::<W, K>(cells, n, width, keep)
    };
    if fits { Ok(rows) } else { Err(5) }
}

/// Whether rows of at least sixteen columns are a valid matrix.
#[inline(never)]
fn fits<const W: usize, K: Keep>(cells: &[u8], n: usize, width: usize, keep: &mut K) -> bool {
    let rows = Rows { cells, n, width };
    exist::<W, K>(rows, all_exist::<W>(rows), keep)
        && subjects_fit::<W, K>(rows, keep)
        && plains_fit::<W, K>(rows, keep)
}

/// Whether every subject exists: its own cell has control. Two rows at a time, so that one needn't wait for another.
#[inline(always)]
fn all_exist<const W: usize>(Rows { cells, width, .. }: Rows) -> bool {
    let step = width + W;
    let mut all = [255; 2];
    let mut at = W - 1;
    while let (Some(one), Some(two)) = (cells.get(at), cells.get(at + step)) {
        all[0] &= one;
        all[1] &= two;
        at += 2 * step;
    }
    all[0] &= cells.get(at).unwrap_or(&255);
    all[0] & all[1] & 2 != 0
}

/// Whether U exists, and of absent subjects the column and the row are zero. Where all exist there is nothing else to look at.
#[inline(always)]
pub fn exist<const W: usize, K: Keep>(rows: Rows, all: bool, keep: &mut K) -> bool {
    let subjects = if all {
        !0 >> (64 - rows.n)
    } else {
        existing::<W>(rows)
    };
    keep.exist(subjects);
    subjects & 1 == 1
}
