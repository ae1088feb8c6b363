//! The cells of a record's bytes, for building and for damaging records. It is kept apart from the second
//! implementation's own reader and writer, so that a fault there would be seen.

use std::ops::Range;

/// The most subject names that a record may have, and the most plain names. They are written here too, so that a wrong limit
/// of the second implementation would be seen.
pub const MOST_SUBJECTS: u64 = 40;
pub const MOST_PLAIN: u64 = 120;

/// What these two limits were before version 0.5.0 of the library.
pub const FORMER_MOST_SUBJECTS: u64 = 64;
pub const FORMER_MOST_PLAIN: u64 = 192;

/// The versions of a record, as its byte 0 has them.
pub const VERSIONS: [u8; 2] = [1, 2];

/// The code of own, and so its bit number; likewise control.
pub const OWN: u64 = 0;
pub const CONTROL: u64 = 1;

/// The bytes of a cell in a version.
fn cell_bytes(version: u8) -> u64 {
    if version == 1 { 2 } else { 4 }
}

/// The number of rights in a version, one for each bit of a cell. Their codes are those below it.
pub fn rights(version: u8) -> u64 {
    8 * cell_bytes(version)
}

/// The number of basic rights in a version, each with two bits. Their numbers k are those below it.
pub fn basic_rights(version: u8) -> u64 {
    rights(version) / 2 - 1
}

/// The version that a record is not of.
pub fn other_version(version: u8) -> u8 {
    3 - version
}

/// The bytes of a record of a version with n subject names and p plain names.
pub fn record_bytes(version: u8, n: u64, p: u64) -> usize {
    (7 + cell_bytes(version) * n * (n + p)) as usize
}

/// A record of a version with n subject names and p plain names, with all cells zero.
pub fn empty_record(version: u8, n: u64, p: u64) -> Vec<u8> {
    let mut record = vec![0; record_bytes(version, n, p)];
    let count = record.len() as u32 - 5;
    record[0] = version;
    record[1..5].copy_from_slice(&count.to_be_bytes());
    record[5..7].copy_from_slice(&[n as u8, p as u8]);
    record
}

/// n and p as the record's header has them.
pub fn sizes(record: &[u8]) -> (u64, u64) {
    (u64::from(record[5]), u64::from(record[6]))
}

/// The places of the bytes of a row's cell in a column, the highest byte first.
fn places(record: &[u8], row: u64, column: u64) -> Range<usize> {
    let ((n, p), width) = (sizes(record), cell_bytes(record[0]));
    let first = 7 + width * (row * (n + p) + column);
    first as usize..(first + width) as usize
}

/// The cell of a row and a column.
pub fn cell(record: &[u8], row: u64, column: u64) -> u32 {
    let bytes = &record[places(record, row, column)];
    bytes
        .iter()
        .fold(0, |cell, byte| cell << 8 | u32::from(*byte))
}

/// The byte that has a right's bit in the cell of a row and a column, and the bit alone.
fn place(record: &[u8], row: u64, column: u64, code: u64) -> (usize, u8) {
    let lowest = places(record, row, column).end - 1;
    (lowest - code as usize / 8, 1 << (code % 8))
}

/// Whether a right's bit is set.
pub fn is_set(record: &[u8], row: u64, column: u64, code: u64) -> bool {
    let (byte, bit) = place(record, row, column, code);
    record[byte] & bit != 0
}

/// Sets a right's bit.
pub fn set(record: &mut [u8], row: u64, column: u64, code: u64) {
    let (byte, bit) = place(record, row, column, code);
    record[byte] |= bit;
}

/// Clears a right's bit.
pub fn clear(record: &mut [u8], row: u64, column: u64, code: u64) {
    let (byte, bit) = place(record, row, column, code);
    record[byte] &= !bit;
}

/// The subjects that exist, that is, control themselves.
pub fn existing_subjects(record: &[u8]) -> Vec<u64> {
    let (n, _) = sizes(record);
    (0..n).filter(|s| is_set(record, *s, *s, CONTROL)).collect()
}

/// The columns of the names that exist: the subjects, and the plain objects that some row owns.
pub fn existing_columns(record: &[u8]) -> Vec<u64> {
    let (n, p) = sizes(record);
    let plains = (n..n + p).filter(|plain| (0..n).any(|row| is_set(record, row, *plain, OWN)));
    existing_subjects(record)
        .into_iter()
        .chain(plains)
        .collect()
}
