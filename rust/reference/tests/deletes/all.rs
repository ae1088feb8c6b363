//! All deletes on many records, each against what the record's bits say.

use reference::{Version, command, uses};

use crate::codes::{delete, with_bit};
use crate::filled::filled;
use crate::random::Random;
use crate::stations::answer;
use crate::{CONTROL, OWN, has_bit};

/// Records of both versions, from U alone to many names and rights, with the count of basic rights.
fn records() -> Vec<(Vec<u8>, u64)> {
    let mut random = Random(107);
    let mut all = Vec::new();
    for version in Version::ALL {
        let ks: Vec<u64> = (0..version.basic_rights()).collect();
        for (n, p) in [(1, 1), (2, 1), (3, 2)] {
            for commands in [0, 20, 80, 400] {
                let size = [version.byte(), n, p];
                let record = filled(size, &ks, commands, &mut random);
                all.push((record, version.basic_rights()));
            }
        }
    }
    all
}

/// Every i, s and o within the bounds of a record.
fn names(record: &[u8]) -> Vec<[u8; 3]> {
    let [n, p] = [record[5], record[6]];
    let pairs = (0..n).flat_map(|i| (0..n).map(move |s| (i, s)));
    pairs
        .flat_map(|(i, s)| (0..n + p).map(move |o| [i, s, o]))
        .collect()
}

/// The number by which a delete is answered.
fn number(record: &[u8], [i, s, o]: [u8; 3], code: u64) -> u64 {
    let n = record[5];
    let exists = |name: u8| match name < n {
        true => has_bit(record, [name, name], CONTROL),
        false => (0..n).any(|row| has_bit(record, [row, name], OWN)),
    };
    if !exists(i) {
        8
    } else if !exists(s) || !exists(o) {
        10
    } else if !has_bit(record, [i, o], OWN) && !has_bit(record, [i, s], CONTROL) {
        12
    } else if !has_bit(record, [s, o], code) {
        19
    } else {
        0
    }
}

/// A delete is never refused by 9, 11, 13 or 14, which are for other codes: of 19, 13 and 14 no two conditions
/// hold for the same command.
#[test]
fn deletes_are_answered_by_the_bits() {
    let mut answers = [0; 20];
    for (record, basic_rights) in records() {
        for [i, s, o] in names(&record) {
            for code in 2..2 + 2 * basic_rights {
                let expected = number(&record, [i, s, o], code);
                let mut after = record.clone();
                let given = command(&mut after, delete(code, [i, s, o]).map(u64::from));
                assert_eq!(given, answer(expected, 0), "{i} {s} {o} {code}");
                if expected == 0 {
                    assert!(!has_bit(&after, [s, o], code));
                    after = with_bit(&after, [s, o], code);
                }
                assert_eq!(after, record, "no other bit changed");
                answers[expected as usize] += 1;
            }
        }
    }
    for number in [0, 8, 10, 12, 19] {
        assert!(answers[number] > 100, "{number} occurs");
    }
}

#[test]
fn no_other_command_is_refused_by_19() {
    for (record, basic_rights) in records() {
        for code in (0..=14).filter(|code| ![8, 9].contains(code)) {
            let uses_k = uses(code).is_some_and(|uses| uses.k);
            for [i, s, o] in names(&record) {
                for k in 0..if uses_k { basic_rights } else { 1 } {
                    let fields = [code, i.into(), s.into(), o.into(), k];
                    let given = command(&mut record.clone(), fields);
                    assert_ne!(given.refusal, 19, "{fields:?}");
                }
            }
        }
    }
}
