//! Records in which U alone exists.

/// A record of this version, n and p with the right L and length, in which U alone exists.
pub fn alone(version: u8, n: u8, p: u8) -> Vec<u8> {
    // A cell has two bytes at version 1 and four at version 2.
    let width = 2 * usize::from(version);
    let cells = usize::from(n) * (usize::from(n) + usize::from(p));
    let mut record = vec![version];
    record.extend((2 + (width * cells) as u32).to_be_bytes());
    record.extend([n, p]);
    record.resize(7 + width * cells, 0);
    if n > 0 {
        // Control is in the last byte of the first cell.
        record[6 + width] = 0x02;
    }
    record
}
