//! Records in which not all subjects exist.

use super::plains::{FIRST_BYTES, unite_first};
use super::scan::Rows;

/// The subjects that exist, each as a bit, or 0 where the column or the row of an absent one is not zero.
#[cold]
#[inline(never)]
pub fn existing<const W: usize>(rows: Rows) -> u64 {
    let mut seen = [0; FIRST_BYTES];
    unite_first(rows, W * rows.n, &mut seen);
    let columns = seen.as_chunks::<W>().0;
    let (mut subjects, mut wrong) = (0, false);
    let mut rest = rows.cells;
    for (s, column) in columns.iter().enumerate().take(rows.n) {
        let (row, after) = rest.split_at(rows.width);
        rest = after;
        if row[W * s + W - 1] & 2 != 0 {
            subjects |= 1 << s;
        } else {
            wrong |= *column != [0; W] || row.iter().fold(0, |any, byte| any | byte) != 0;
        }
    }
    if wrong { 0 } else { subjects }
}
