//! The limits of a record of either version: n is 1 to 40 and p is 0 to 120. Outside them every call is refused
//! by 3.

use reference::{
    Answer, Safety, Version, buffer_minimum, command, held, leaks_by, read, record_length, run,
    safety, to_version_1, to_version_2, valid, write, write_list,
};

#[path = "common/alone.rs"]
mod alone;

use alone::alone;

/// Both versions, by byte 0.
const VERSIONS: [u8; 2] = [1, 2];

/// Commands that change a record with U alone: the first if n is over 1, the second if n is 1 and p is not 0.
const CHANGES: [[u8; 5]; 2] = [[12, 0, 1, 0, 0], [10, 0, 0, 1, 0]];

fn answer(refusal: u64, value: u64) -> Answer {
    Answer { refusal, value }
}

/// Asserts that every call refuses the record by this number and leaves it as it was, and that the conversions
/// leave the output as it was. The safety question is given the length of a buffer and no buffer, so there is
/// none that it could change.
fn refused(record: &[u8], refusal: u64) {
    assert_eq!(read(record), Err(refusal), "{:?}", &record[..7]);
    assert!(!valid(record));
    // Numbers within all bounds, and numbers that a later test would refuse.
    for number in [0, 999] {
        assert_eq!(held(record, number, number, number), answer(refusal, 0));
        for (trust, buffer) in [(0, 2000), (u64::MAX, 2000), (0, 0)] {
            let asked = safety(record, trust, number, number, number, buffer);
            assert_eq!(asked, Safety::Refused(refusal));
        }
    }
    let mut after = record.to_vec();
    for fields in [CHANGES[0], CHANGES[1], [200; 5]] {
        let fields = fields.map(u64::from);
        assert_eq!(command(&mut after, fields), answer(refusal, 0));
        assert_eq!(after, record);
    }
    for list in [write_list(&CHANGES[..1]), write_list(&CHANGES[1..]), vec![]] {
        assert_eq!(run(&mut after, &list), answer(refusal, 0));
        assert_eq!(after, record);
    }
    for convert in [to_version_1, to_version_2] {
        for length in [0, 7, 4 * record.len()] {
            let mut out = vec![0xA5; length];
            assert_eq!(convert(record, &mut out), answer(refusal, 0));
            assert_eq!(out, vec![0xA5; length]);
        }
    }
    let reason = format!("the record is refused by {refusal}");
    assert_eq!(leaks_by(record, 0, 0, 0, 1, &write_list(&[])), Err(reason));
}

/// A version, the length and the first bytes of its largest record, its last basic right and that one's code,
/// starred.
type Largest = (u8, usize, [u8; 7], u8, u64);

#[test]
fn the_largest_record_is_answered_by_every_call() {
    let largest: [Largest; 2] = [
        (1, 12_807, [0x01, 0x00, 0x00, 0x32, 0x02, 0x28, 0x78], 6, 15),
        (
            2,
            25_607,
            [0x02, 0x00, 0x00, 0x64, 0x02, 0x28, 0x78],
            14,
            31,
        ),
    ];
    for (version, length, start, k, code) in largest {
        let record = alone(version, 40, 120);
        assert_eq!(record.len(), length);
        assert_eq!(record[..7], start);
        assert!(valid(&record));
        assert_eq!(write(&read(&record).unwrap()), record);
        assert_eq!(held(&record, 0, 0, 1), answer(0, 1));
        assert_eq!(held(&record, 39, 159, code), answer(0, 0));
        assert_eq!(held(&record, 40, 159, code), answer(7, 0));
        assert_eq!(held(&record, 39, 160, code), answer(7, 0));
        assert_eq!(held(&record, 39, 159, code + 1), answer(7, 0));
        // The last subject is created, and by it the last log, over which it grants U a right.
        let commands = [[12, 0, 39, 0, 0], [10, 39, 0, 159, 0], [5, 39, 0, 159, k]];
        let (mut one_by_one, mut in_a_run) = (record.clone(), record.clone());
        for fields in commands.map(|fields| fields.map(u64::from)) {
            assert_eq!(command(&mut one_by_one, fields), answer(0, 0));
        }
        assert_eq!(run(&mut in_a_run, &write_list(&commands)), answer(0, 3));
        assert_eq!(held(&in_a_run, 0, 159, code), answer(0, 1));
        assert_eq!(command(&mut in_a_run, [12, 0, 40, 0, 0]), answer(7, 0));
        assert_eq!(command(&mut in_a_run, [10, 0, 0, 160, 0]), answer(7, 0));
        assert_eq!(one_by_one, in_a_run);
        assert_eq!(safety(&record, 0, 0, 159, code, 257), Safety::Leaks);
        assert_eq!(safety(&record, 1, 0, 159, code, 257), Safety::Safe);
    }
}

#[test]
fn the_largest_records_are_converted() {
    let (narrow, wide) = (alone(1, 40, 120), alone(2, 40, 120));
    for record in [&narrow, &wide] {
        let mut out = vec![0; 25_607];
        assert_eq!(to_version_1(record, &mut out), answer(0, 12_807));
        assert_eq!(out[..12_807], narrow);
        assert_eq!(to_version_2(record, &mut out), answer(0, 25_607));
        assert_eq!(out, wide);
    }
}

#[test]
fn outside_the_limits_every_call_is_refused_by_3() {
    for version in VERSIONS {
        for n in [0, 41, 64, 65, 255] {
            for p in [0, 1, 120, 121, 255] {
                refused(&alone(version, n, p), 3);
            }
        }
        for p in [121, 192, 193, 255] {
            for n in [1, 2, 40] {
                refused(&alone(version, n, p), 3);
            }
        }
    }
}

/// All n and p: as a header without cells, which within the limits is refused by 4, and as a whole record.
#[test]
fn within_the_limits_there_is_no_3() {
    for version in VERSIONS {
        for n in 0..=255 {
            for p in 0..=255 {
                let within = (1..=40).contains(&n) && p <= 120;
                let expected = if within { 4 } else { 3 };
                let header = [version, 0, 0, 0, 0, n, p];
                assert_eq!(read(&header), Err(expected), "{version} {n} {p}");
                let record = alone(version, n, p);
                assert_eq!(valid(&record), within, "{version} {n} {p}");
            }
        }
    }
}

/// The length by n and p, against that of whole records.
#[test]
fn each_version_has_its_length() {
    for n in 1..=40 {
        for p in 0..=120 {
            let [narrow, wide] = VERSIONS.map(|version| alone(version, n, p).len());
            let (n, p) = (u64::from(n), u64::from(p));
            assert_eq!(Version::One.record_length(n, p), narrow, "{n} {p}");
            assert_eq!(record_length(n, p), narrow, "{n} {p}");
            assert_eq!(Version::Two.record_length(n, p), wide, "{n} {p}");
        }
    }
}

/// The tests of a record go by their numbers.
#[test]
fn of_several_faults_the_lowest_number_is_given() {
    for version in VERSIONS {
        for (n, p, expected) in [(41, 120, 3), (40, 121, 3), (0, 0, 3), (40, 120, 4)] {
            // Byte 0 is the version, and here an unknown one; the bytes 1 and 4 are the first and the last of L.
            for (at, add, expected) in [(0, 2, 2), (1, 1, expected), (4, 1, expected)] {
                let mut record = alone(version, n, p);
                record[at] += add;
                refused(&record, expected);
            }
            // Where byte 0 is the other version's, L and the length are not those of that version.
            let mut other = alone(version, n, p);
            other[0] = 3 - version;
            refused(&other, expected);
            let mut longer = alone(version, n, p);
            longer.push(0);
            refused(&longer, expected);
            assert_eq!(read(&longer[..6]), Err(1));
        }
        // Without U the matrix is not valid.
        for (n, p, expected) in [(41, 120, 3), (40, 121, 3), (40, 120, 5)] {
            let mut record = alone(version, n, p);
            record[7..11].fill(0);
            refused(&record, expected);
        }
    }
}

#[test]
fn the_largest_record_asks_for_257_bytes() {
    assert_eq!(buffer_minimum(40), 257);
    for version in VERSIONS {
        let record = alone(version, 40, 120);
        for (trust, answered) in [(0, Safety::Leaks), (1, Safety::Safe)] {
            assert_eq!(safety(&record, trust, 39, 159, 0, 257), answered);
            assert_eq!(safety(&record, trust, 39, 159, 0, 256), Safety::Refused(15));
        }
    }
}

#[test]
fn the_trust_mask_has_64_bits() {
    for version in VERSIONS {
        let asked = |trust, buffer| safety(&alone(version, 40, 120), trust, 39, 159, 0, buffer);
        assert_eq!(asked(1 << 39, 257), Safety::Leaks);
        assert_eq!(asked((1 << 40) - 1, 257), Safety::Safe);
        for bit in 40..64 {
            assert_eq!(asked(1 << bit, 257), Safety::Refused(7), "bit {bit}");
            assert_eq!(asked(1 << bit, 0), Safety::Refused(7), "bit {bit}");
        }
    }
}
