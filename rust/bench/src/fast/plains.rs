//! The plain columns: what is seen in each over all rows, and its test.

use super::cell::number;
use super::lanes::{LANE, Lane};
use super::parts::{Part, part};
use super::scan::Rows;
use super::tables::{Keep, SUBJECTS};

/// The bytes of a row that are united at once: first so many, then fewer.
const MANY: usize = 96;
const SOME: usize = 48;
const FEW: usize = 16;

/// The bits set in some row of N lanes from byte `start` of each row on. The compiler holds them in registers over all rows.
#[inline(never)]
fn united<const N: usize>(rows: Rows, start: usize) -> Part<N> {
    let Rows { cells, width, .. } = rows;
    assert!(width >= N * LANE && start <= width - N * LANE);
    let mut seen = [Lane::every(0); N];
    let mut rest = cells;
    while let Some((row, after)) = rest.split_at_checked(width) {
        rest = after;
        let bytes = part::<N>(row, start);
        for at in 0..N {
            seen[at] |= Lane::of(&bytes[at]);
        }
    }
    let mut bytes = [[0; LANE]; N];
    for (to, seen) in bytes.iter_mut().zip(seen) {
        seen.store(to);
    }
    bytes
}

/// Whether the columns from byte `start` of the rows on, of N lanes, fit. Of these, bytes below `skip` are of subject columns.
#[inline(always)]
fn part_fits<const W: usize, const N: usize, K: Keep>(
    rows: Rows,
    (start, skip): (usize, usize),
    keep: &mut K,
) -> bool {
    let seen = united::<N>(rows, start);
    let columns = seen.as_flattened()[skip..].as_chunks().0;
    keep.plain::<W>((start + skip) / W, columns);
    columns_fit::<W>(columns)
}

/// Whether every plain column fits. A last part that would go beyond the row begins earlier and repeats some.
#[inline(always)]
pub fn plains_fit<const W: usize, K: Keep>(rows: Rows, keep: &mut K) -> bool {
    let first = W * rows.n;
    let mut j = first;
    let mut fit = true;
    while j + MANY <= rows.width {
        fit &= part_fits::<W, { MANY / LANE }, K>(rows, (j, 0), keep);
        j += MANY;
    }
    if j + SOME <= rows.width {
        fit &= part_fits::<W, { SOME / LANE }, K>(rows, (j, 0), keep);
        j += SOME;
    }
    while j < rows.width {
        let start = j.min(rows.width - FEW);
        let skip = first.saturating_sub(start);
        fit &= part_fits::<W, { FEW / LANE }, K>(rows, (start, skip), keep);
        j += FEW;
    }
    fit
}

/// The bytes of the most subject columns, and of a part that begins in them.
pub const FIRST_BYTES: usize = 4 * SUBJECTS + MANY;

/// Writes the bits set in some row of the bytes below byte `upto`, which are at most those of the most subject columns, and perhaps of others
/// into a list of zeros.
#[inline(always)]
pub fn unite_first(rows: Rows, upto: usize, seen: &mut [u8; FIRST_BYTES]) {
    if rows.width >= MANY {
        parts_seen::<{ MANY / LANE }>(rows, upto, seen);
    } else if rows.width >= FEW {
        parts_seen::<{ FEW / LANE }>(rows, upto, seen);
    } else {
        for row in rows.cells.chunks_exact(rows.width) {
            for (seen, byte) in seen.iter_mut().zip(row) {
                *seen |= byte;
            }
        }
    }
}

/// The same, in parts of N lanes, which rows have.
#[inline(always)]
fn parts_seen<const N: usize>(rows: Rows, upto: usize, seen: &mut [u8]) {
    for j in (0..upto).step_by(N * LANE) {
        let start = j.min(rows.width - N * LANE);
        let part = united::<N>(rows, start);
        seen[start..][..N * LANE].copy_from_slice(part.as_flattened());
    }
}

/// The bits set in some cell of the columns below column `upto`, and perhaps of others.
#[inline(always)]
pub fn seen_below<const W: usize>(rows: Rows, upto: usize) -> u32 {
    let mut seen = [0; FIRST_BYTES];
    unite_first(rows, W * upto, &mut seen);
    let cells = seen.as_chunks::<W>().0.iter();
    cells.fold(0, |any, cell| any | number(*cell))
}

/// Whether each column has an owner and no control, or is zero. Cells are read with their first byte as the lowest, so that own and control
/// are in the highest, and all are looked at.
#[inline(never)]
fn columns_fit<const W: usize>(seen: &[[u8; W]]) -> bool {
    let bytes = seen.as_flattened();
    if W == 2 {
        let mut wrong = 0;
        for cell in bytes.as_chunks().0 {
            let bits = u16::from_le_bytes(*cell);
            wrong |= if bits >> 8 & 3 == 1 { 0 } else { bits };
        }
        wrong == 0
    } else {
        let mut wrong = 0;
        for cell in bytes.as_chunks().0 {
            let bits = u32::from_le_bytes(*cell);
            wrong |= if bits >> 24 & 3 == 1 { 0 } else { bits };
        }
        wrong == 0
    }
}
