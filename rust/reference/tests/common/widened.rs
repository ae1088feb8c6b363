//! Version 2 records from version 1 records, byte by byte.

/// The record of version 2 with the cells of this one of version 1, whose length has to be right: L counts twice
/// as many bytes of cells, and each cell gets two zero bytes before its own two.
pub fn widened(record: &[u8]) -> Vec<u8> {
    let l = 2 + 2 * (record.len() - 7) as u32;
    let mut wide = vec![2];
    wide.extend(l.to_be_bytes());
    wide.extend(&record[5..7]);
    for cell in record[7..].chunks_exact(2) {
        wide.extend([0, 0, cell[0], cell[1]]);
    }
    wide
}
