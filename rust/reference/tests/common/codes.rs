//! Records at both versions with the codes that each has, and the bits and the grants of these codes.

use reference::valid;

use crate::widened::widened;

/// A record of version 1 with the count of its codes, and the one of version 2 with the same cells and its count.
pub fn at_both_versions(narrow: &[u8]) -> [(Vec<u8>, u64); 2] {
    let both = [(narrow.to_vec(), 16), (widened(narrow), 32)];
    assert!(both.iter().all(|(record, _)| valid(record)));
    both
}

/// The basic right k of a code.
pub fn k_of(code: u64) -> u8 {
    (code as u8 - 2) / 2
}

/// The grant of the right of a code, plain or starred.
pub fn grant(code: u64, [i, s, o]: [u8; 3]) -> [u8; 5] {
    [4 + code as u8 % 2, i, s, o, k_of(code)]
}

/// The delete of the right of a code, plain or starred.
pub fn delete(code: u64, [i, s, o]: [u8; 3]) -> [u8; 5] {
    [8 + code as u8 % 2, i, s, o, k_of(code)]
}

/// The record, of either version, with the bit of this code set in the cell of this row and column.
pub fn with_bit(record: &[u8], [row, column]: [u8; 2], code: u64) -> Vec<u8> {
    let mut record = record.to_vec();
    let [width, n, p] = [2 * record[0], record[5], record[6]].map(usize::from);
    let cells_before = usize::from(row) * (n + p) + usize::from(column);
    // The lowest bits are in the last byte of the cell.
    let last = 7 + width * cells_before + width - 1;
    record[last - code as usize / 8] |= 1 << (code % 8);
    record
}
