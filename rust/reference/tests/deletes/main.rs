//! Deletes of a basic right, codes 8 and 9: accepted where the bit that they name is set in the cell of s and o,
//! and else refused by 19. Each case is tried at both versions, with every basic right that the version has.

#[path = "../common/alone.rs"]
mod alone;
#[path = "../common/codes.rs"]
mod codes;
#[path = "../common/filled.rs"]
mod filled;
#[path = "../common/random.rs"]
mod random;
#[path = "../common/stations.rs"]
mod stations;
#[path = "../common/tried.rs"]
mod tried;
#[path = "../common/widened.rs"]
mod widened;

mod all;
mod lists;
mod one;

use codes::with_bit;
use stations::{A, A2, B, B2, with};

/// The codes of own and control.
const OWN: u64 = 0;
const CONTROL: u64 = 1;

/// The code of the other form of the same basic right.
fn other_form(code: u64) -> u64 {
    code ^ 1
}

/// Whether the bit of this code is set in the cell of this row and column.
fn has_bit(record: &[u8], cell: [u8; 2], code: u64) -> bool {
    with_bit(record, cell, code) == record
}

#[test]
fn the_bits_are_in_these_bytes() {
    assert_eq!(with_bit(&A, [1, 3], 15), with(&A, 21, [0x80, 0x00]));
    assert_eq!(with_bit(&A, [2, 3], 2), with(&A, 29, [0x00, 0x05]));
    let high = [0x80, 0x00, 0x00, 0x00];
    assert_eq!(with_bit(&A2, [1, 3], 31), with(&A2, 35, high));
    assert_eq!(with_bit(&A2, [2, 3], 3), with(&A2, 54, [0x09]));
    assert_eq!(with_bit(&B, [0, 2], OWN), with(&B, 12, [0x01]));
    assert_eq!(with_bit(&B2, [1, 1], CONTROL), with(&B2, 26, [0x02]));
    assert!(has_bit(&A2, [2, 3], OWN));
    assert!(!has_bit(&A2, [1, 3], OWN));
}
