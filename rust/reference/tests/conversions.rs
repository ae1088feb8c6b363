//! The conversions of a record to version 1 and to version 2.

use reference::{Answer, Version, read, to_version_1, to_version_2};

#[path = "common/alone.rs"]
mod alone;
#[path = "common/filled.rs"]
mod filled;
#[path = "common/random.rs"]
mod random;
#[path = "common/stations.rs"]
mod stations;
#[path = "common/widened.rs"]
mod widened;

use filled::filled;
use random::Random;
use stations::{A, A2, B, B2, answer, with};
use widened::widened;

/// One of the two calls.
type Conversion = fn(&[u8], &mut [u8]) -> Answer;

/// Both calls, each with the version that it is to.
const CONVERSIONS: [(Version, Conversion); 2] =
    [(Version::One, to_version_1), (Version::Two, to_version_2)];

/// Asserts that the call is refused by this number, with value 0, and leaves an output of this length as it was.
fn refused(convert: Conversion, record: &[u8], length: usize, refusal: u64) {
    let mut out = vec![0xA5; length];
    assert_eq!(convert(record, &mut out), answer(refusal, 0));
    assert_eq!(out, vec![0xA5; length]);
}

/// Asserts that the call writes this record: into a longer output, whose other bytes stay as they were, and
/// into one of the same length. Any shorter one is refused by 15.
fn writes(convert: Conversion, record: &[u8], new: &[u8]) {
    let length = new.len();
    for longer in [0, 1, 60, 25_607] {
        let mut out = vec![0xA5; length + longer];
        assert_eq!(convert(record, &mut out), answer(0, length as u64));
        assert_eq!(out[..length], *new);
        assert_eq!(out[length..], vec![0xA5; longer]);
    }
    for shorter in [0, 1, 6, 7, length / 2, length - 2, length - 1] {
        refused(convert, record, shorter, 15);
    }
}

/// Asserts that the call is refused by 18, whether the output has room for the new record or not.
fn has_no_room(record: &[u8]) {
    for length in [0, 1, 7, 30, 31, 54, 55, 25_607] {
        refused(to_version_1, record, length, 18);
    }
}

#[test]
fn the_stations_a_and_b() {
    for (narrow, wide) in [(&A[..], &A2[..]), (&B, &B2)] {
        writes(to_version_2, narrow, wide);
        writes(to_version_1, wide, narrow);
        // A record that is of the wanted version already is copied.
        writes(to_version_1, narrow, narrow);
        writes(to_version_2, wide, wide);
    }
}

#[test]
fn the_bytes_of_a_cell_keep_their_order() {
    // Rights in the cells of U over itself, of 1 over U and of 2 over log 3.
    let narrow = with(&A, 7, [0x12, 0x36]);
    let narrow = with(&narrow, 15, [0xFE, 0x04]);
    let narrow = with(&narrow, 29, [0xAB, 0xC9]);
    let wide = [
        0x02, 0x00, 0x00, 0x00, 0x32, 0x03, 0x01, //
        0x00, 0x00, 0x12, 0x36, 0x00, 0x00, 0x00, 0x01, //
        0x00, 0x00, 0x00, 0x00, 0x00, 0x00, 0x00, 0x00, //
        0x00, 0x00, 0xFE, 0x04, 0x00, 0x00, 0x00, 0x02, //
        0x00, 0x00, 0x00, 0x01, 0x00, 0x00, 0x00, 0x00, //
        0x00, 0x00, 0x00, 0x00, 0x00, 0x00, 0x00, 0x00, //
        0x00, 0x00, 0x00, 0x02, 0x00, 0x00, 0xAB, 0xC9,
    ];
    writes(to_version_2, &narrow, &wide);
    writes(to_version_1, &wide, &narrow);
}

#[test]
fn worked_cases_of_18() {
    // k 7 plain, which is code 16, and k 14 starred, which is code 31, with own and without.
    for cell in [
        [0x00, 0x01, 0x00, 0x01],
        [0x00, 0x02, 0x00, 0x01],
        [0x40, 0x00, 0x00, 0x01],
        [0x80, 0x00, 0xFF, 0xFD],
    ] {
        let record = with(&A2, 51, cell);
        has_no_room(&record);
        writes(to_version_2, &record, &record);
    }
    for cell in [[0x00, 0x01, 0x00, 0x00], [0x80, 0x00, 0x00, 0x00]] {
        has_no_room(&with(&A2, 35, cell));
        has_no_room(&with(&A2, 23, cell));
    }
    // Own and control do not count, nor do the basic rights up to 6.
    let low = with(&A2, 51, [0x00, 0x00, 0xFF, 0xFD]);
    writes(to_version_1, &low, &with(&A, 29, [0xFF, 0xFD]));
    let owned_by_all = with(&with(&A2, 19, [0, 0, 0, 1]), 35, [0, 0, 0, 1]);
    writes(
        to_version_1,
        &owned_by_all,
        &with(&with(&A, 13, [0, 1]), 21, [0, 1]),
    );
    let controlled = with(&A2, 15, [0x00, 0x00, 0x00, 0x02]);
    writes(to_version_1, &controlled, &with(&A, 11, [0x00, 0x02]));
}

/// Each bit of a basic right, in each cell: all names of A exist, so it may stand in any.
#[test]
fn a_high_bit_in_any_cell_is_18() {
    for cell in 0..12 {
        let at = 7 + 4 * cell;
        for bit in 2..32 {
            let mut wide = A2;
            wide[at + 3 - bit / 8] |= 1 << (bit % 8);
            assert!(read(&wide).is_ok(), "bit {bit} of cell {cell}");
            writes(to_version_2, &wide, &wide);
            if bit >= 16 {
                has_no_room(&wide);
            } else {
                let mut narrow = A;
                narrow[7 + 2 * cell + 1 - bit / 8] |= 1 << (bit % 8);
                writes(to_version_1, &wide, &narrow);
            }
        }
    }
}

/// The order is 1 to 5, then 18, then 15.
#[test]
fn a_record_that_is_turned_down_gets_no_18_and_no_15() {
    let high = with(&A2, 51, [0x80, 0x00, 0x00, 0x01]);
    let faulty = [
        (1, high[..6].to_vec()),
        (1, vec![]),
        (2, with(&high, 0, [0x00])),
        (2, with(&high, 0, [0x03])),
        (3, with(&high, 5, [0x00])),
        (3, with(&high, 6, [0x79])),
        (4, with(&high, 0, [0x01])),
        (4, [&high[..], &[0x00]].concat()),
        (4, with(&high, 4, [0x1A])),
        (5, with(&high, 10, [0x00])),
        // Nobody owns the log, over which U has k 7.
        (5, with(&B2, 15, [0x00, 0x01, 0x00, 0x00])),
    ];
    for (refusal, record) in faulty {
        for (_, convert) in CONVERSIONS {
            for length in [0, 31, 55, 25_607] {
                refused(convert, &record, length, refusal);
            }
        }
    }
    has_no_room(&high);
}

/// A record of this version in which random commands with k up to this one were tried.
fn random_record(version: u8, last_k: u64, random: &mut Random) -> Vec<u8> {
    let ks: Vec<u64> = (0..=last_k).collect();
    let (n, p) = (1 + random.below(4) as u8, random.below(4) as u8);
    filled([version, n, p], &ks, random.below(300), random)
}

/// The new record that the call writes.
fn converted(convert: Conversion, record: &[u8]) -> Vec<u8> {
    let mut out = vec![0; 25_607];
    let Answer { refusal, value } = convert(record, &mut out);
    assert_eq!(refusal, 0);
    out.truncate(value as usize);
    out
}

#[test]
fn from_1_to_2_and_back_are_the_same_bytes() {
    let mut random = Random(105);
    for _ in 0..300 {
        let record = random_record(1, 6, &mut random);
        let wide = converted(to_version_2, &record);
        assert_eq!(wide, widened(&record));
        assert_eq!(converted(to_version_1, &wide), record);
        for (version, convert) in CONVERSIONS {
            let new = read(&converted(convert, &record)).unwrap();
            let old = read(&record).unwrap();
            assert_eq!((new.n, new.p, new.state), (old.n, old.p, old.state));
            assert_eq!(new.version, version);
        }
    }
}

#[test]
fn from_2_to_1_and_back_are_the_same_bytes_unless_18_is_given() {
    let mut random = Random(205);
    let (mut with_room, mut without_room) = (0, 0);
    for round in 0..600 {
        // Half of the records have no commands with a k over 6.
        let last_k = if round % 2 == 0 { 6 } else { 14 };
        let record = random_record(2, last_k, &mut random);
        assert_eq!(converted(to_version_2, &record), record);
        // The first two bytes of a cell have the bits from 16 on.
        let high = record[7..].chunks(4).any(|cell| cell[..2] != [0, 0]);
        if high {
            has_no_room(&record);
            without_room += 1;
        } else {
            let narrow = converted(to_version_1, &record);
            assert_eq!(widened(&narrow), record);
            assert_eq!(converted(to_version_2, &narrow), record);
            assert_eq!(read(&narrow).unwrap().state, read(&record).unwrap().state);
            with_room += 1;
        }
    }
    assert!(with_room > 50 && without_room > 50, "both occur");
}
