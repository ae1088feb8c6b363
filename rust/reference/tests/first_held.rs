//! After how many commands of a list a right is held for the first time. A question is s, o and the code of the
//! right; most cases are tried at both versions, with every basic right that the version has.

use reference::{Answer, first_held, held, run, write_list};

#[path = "common/codes.rs"]
mod codes;
#[path = "common/stations.rs"]
mod stations;
#[path = "common/widened.rs"]
mod widened;

use codes::{at_both_versions, delete, grant, k_of, with_bit};
use stations::{A, A2, B, B2, answer, with};

/// A command that is refused by 6 on every record.
const REFUSED: [u8; 5] = [14, 0, 0, 0, 0];

/// U's grant of control over subject 1 to itself, which on station A is accepted once.
const OTHER: [u8; 5] = [6, 0, 0, 1, 0];

/// The answer with a copy as long as the record.
fn asked(record: &[u8], commands: &[[u8; 5]], [s, o, right]: [u64; 3]) -> Answer {
    first_held(record, &write_list(commands), s, o, right, record.len())
}

/// Asserts that the right is held for the first time after m of the commands.
fn after(record: &[u8], commands: &[[u8; 5]], question: [u64; 3], m: u64) {
    let given = asked(record, commands, question);
    assert_eq!(given, answer(0, m + 1), "{commands:?} {question:?}");
}

/// Asserts that the right is held after no beginning of the list that is accepted.
fn never(record: &[u8], commands: &[[u8; 5]], question: [u64; 3]) {
    let given = asked(record, commands, question);
    assert_eq!(given, answer(0, 0), "{commands:?} {question:?}");
}

/// The lists that the scope paper gives for its leaks, and with them questions of own and control.
#[test]
fn stations_a_and_b() {
    for a in [&A[..], &A2] {
        let again = [[13, 0, 1, 0, 0], [12, 0, 1, 0, 0], [3, 0, 2, 1, 0]];
        // Subject 1 owns the log once it has destroyed 2, and so holds the right before it is granted.
        let destroyed = [[13, 1, 2, 0, 0], [4, 1, 1, 3, 0]];
        after(a, &destroyed, [1, 3, 2], 1);
        after(a, &destroyed, [1, 3, 0], 1);
        never(a, &destroyed, [0, 3, 2]);
        after(a, &again[..1], [0, 2, 0], 1);
        after(a, &again, [0, 2, 0], 1);
        after(a, &again, [2, 1, 0], 3);
        never(a, &again[..2], [2, 1, 0]);
        never(a, &again, [1, 1, 0]);
        // Subject 1 controls itself at the start, and U comes to control it.
        after(a, &again, [1, 1, 1], 0);
        after(a, &[OTHER], [0, 1, 1], 1);
        after(a, &again, [2, 3, 0], 0);
    }
    for b in [&B[..], &B2] {
        let created = [[10, 0, 0, 2, 0], [12, 0, 1, 0, 0], [5, 0, 1, 2, 0]];
        after(b, &created, [1, 2, 3], 3);
        after(b, &created, [0, 2, 3], 1);
        after(b, &created, [1, 1, 1], 2);
        never(b, &created[..2], [1, 2, 3]);
        never(b, &created, [1, 2, 0]);
    }
}

/// Whatever the list does, also if it takes the right away or its first command is refused.
#[test]
fn held_at_the_start() {
    for (record, codes) in at_both_versions(&A) {
        for code in 2..codes {
            let granted = with_bit(&record, [1, 3], code);
            let gone = delete(code, [2, 1, 3]);
            let back = grant(code, [2, 1, 3]);
            for list in [&[][..], &[OTHER], &[gone], &[gone, back], &[REFUSED, back]] {
                after(&granted, list, [1, 3, code], 0);
            }
            never(&record, &[gone, back], [1, 3, code]);
        }
    }
}

#[test]
fn an_empty_list() {
    for (record, codes) in at_both_versions(&A) {
        for s in 0..3 {
            for o in 0..4 {
                for code in 0..codes {
                    // With no command the question is the one that `held` answers.
                    let expected = held(&record, s, o, code);
                    assert_eq!(asked(&record, &[], [s, o, code]), expected);
                }
            }
        }
    }
}

#[test]
fn the_third_command_brings_it() {
    for (record, codes) in at_both_versions(&A) {
        for code in 2..codes {
            let [this, other_s] = [[2, 1, 3], [2, 0, 3]].map(|names| grant(code, names));
            let other_o = grant(code, [1, 1, 2]);
            // Neither the same right of another subject nor that over another name counts.
            let list = [other_s, other_o, this, OTHER];
            after(&record, &list[..3], [1, 3, code], 3);
            after(&record, &list, [1, 3, code], 3);
            after(&record, &list, [0, 3, code], 1);
            never(&record, &list[..2], [1, 3, code]);
            never(&record, &list, [0, 2, code]);
            // Another basic right does not count either, nor do own and control.
            let other_k = [4, 2, 1, 3, (k_of(code) + 1) % 7];
            never(&record, &[other_k, OTHER], [1, 3, code]);
            never(&record, &list, [1, 3, 0]);
            never(&record, &list, [1, 3, 1]);
        }
    }
}

#[test]
fn it_comes_goes_and_comes_again() {
    for (record, codes) in at_both_versions(&A) {
        for code in 2..codes {
            let [this, gone] = [grant(code, [2, 1, 3]), delete(code, [2, 1, 3])];
            after(&record, &[OTHER, this, gone], [1, 3, code], 2);
            after(&record, &[OTHER, this, gone, this], [1, 3, code], 2);
            after(&record, &[this, gone, this, gone, this], [1, 3, code], 1);
            // The object goes with the right over it, and is created anew.
            let anew = [[11, 2, 0, 3, 0], [10, 2, 0, 3, 0]];
            after(&record, &[this, anew[0], anew[1], this], [1, 3, code], 1);
            let granted = with_bit(&record, [1, 3], code);
            after(&granted, &[gone, this], [1, 3, code], 0);
        }
    }
}

/// Commands refused by each number, once U controls 1, and 1 has destroyed 2 and owns the log.
#[test]
fn a_refused_command_ends_the_list() {
    let start = [OTHER, [13, 1, 2, 0, 0]];
    let refused = [
        (6, REFUSED),
        (7, [4, 1, 0, 4, 0]),
        (8, [10, 2, 0, 3, 0]),
        (9, [6, 1, 0, 3, 0]),
        (10, [4, 1, 2, 3, 0]),
        (11, [10, 0, 0, 3, 0]),
        (12, [4, 0, 0, 3, 0]),
        (13, [3, 0, 1, 1, 0]),
        (14, OTHER),
        (19, [8, 1, 0, 3, 1]),
    ];
    let this = [4, 1, 0, 3, 0];
    for (record, _) in at_both_versions(&A) {
        for (refusal, command) in refused {
            let refused_before = [start[0], start[1], command, this];
            let ran = run(&mut record.clone(), &write_list(&refused_before));
            assert_eq!(ran, answer(refusal, 2));
            never(&record, &refused_before, [0, 3, 2]);
            // What came in by the last accepted command counts.
            after(&record, &refused_before, [1, 3, 2], 2);
            after(&record, &refused_before, [0, 1, 1], 1);
            let refused_after = [start[0], start[1], this, command];
            let ran = run(&mut record.clone(), &write_list(&refused_after));
            assert_eq!(ran, answer(refusal, 3));
            after(&record, &refused_after, [0, 3, 2], 3);
            // Nothing is tried after a refused first command.
            never(&record, &[REFUSED, start[0], start[1], this], [0, 3, 2]);
        }
    }
}

/// The greatest k of the version is allowed, and the next is refused by 7.
#[test]
fn the_basic_rights_are_those_of_the_version() {
    for (record, codes) in at_both_versions(&A) {
        let greatest = k_of(codes - 1);
        let [last, beyond] = [greatest, greatest + 1].map(|k| [4, 2, 1, 3, k]);
        after(&record, &[last, REFUSED], [1, 3, codes - 2], 1);
        never(&record, &[beyond, last], [1, 3, codes - 2]);
    }
}

/// The starred bit counts for the plain right, and not the other way round.
#[test]
fn by_the_starred_form() {
    for (record, codes) in at_both_versions(&A) {
        for plain in (2..codes).step_by(2) {
            let starred = plain + 1;
            let [r, star] = [plain, starred].map(|code| grant(code, [2, 1, 3]));
            after(&record, &[OTHER, star, r], [1, 3, plain], 2);
            after(&record, &[OTHER, star, r], [1, 3, starred], 2);
            after(&record, &[r, star], [1, 3, starred], 2);
            never(&record, &[r, OTHER], [1, 3, starred]);
            // A transfer brings it too, by the starred bit of another.
            let transfer = [1, 1, 0, 3, k_of(plain)];
            after(&record, &[star, transfer], [0, 3, plain], 2);
            never(&record, &[star, transfer], [0, 3, starred]);
        }
    }
}

/// Who comes to own o holds every basic right over it, and not control.
#[test]
fn by_own() {
    for (record, codes) in at_both_versions(&A) {
        for code in 2..codes {
            for s in 0..3 {
                after(&record, &[], [s, s + 1, code], 0);
            }
            for giving in [3, 7] {
                let list = [OTHER, [giving, 2, 1, 3, 0], grant(code, [2, 1, 3])];
                after(&record, &list, [1, 3, code], 2);
                never(&record, &list, [1, 3, 1]);
            }
            // U owns subject 2 once it has destroyed 1, and then creates 1 and owns that as well.
            let list = [[13, 0, 1, 0, 0], [12, 0, 1, 0, 0]];
            after(&record, &list, [0, 2, code], 1);
            after(&record, &list, [0, 1, code], 0);
        }
    }
    // A log that is created is its creator's.
    for (record, codes) in at_both_versions(&with(&A, 30, [0x00])) {
        for code in 2..codes {
            after(&record, &[OTHER, [10, 1, 0, 3, 0]], [1, 3, code], 2);
        }
    }
}

/// The records that 1 to 5 turn down, with their numbers.
fn wrong_records() -> Vec<(u64, Vec<u8>)> {
    vec![
        (1, vec![]),
        (1, A2[..6].to_vec()),
        (2, with(&A, 0, [0x00])),
        (2, with(&A2, 0, [0x03])),
        (3, with(&A, 5, [0x00])),
        (3, with(&A2, 6, [121])),
        (4, [&A[..], &[0]].concat()),
        (4, with(&A2, 0, [0x01])),
        (5, with(&A, 8, [0x00])),
        (5, with(&A2, 10, [0x00])),
    ]
}

/// The lists that 16 turns down. Each but the shortest begins with a command by which the right comes in.
fn wrong_lists() -> Vec<Vec<u8>> {
    let this = [4, 2, 1, 3, 0];
    let two = write_list(&[this, this]);
    let mut wrong: Vec<_> = (0..5).map(|length| two[..length].to_vec()).collect();
    wrong.extend([0, 2].map(|version| with(&two, 0, [version])));
    wrong.extend([6, 11, 13, 18].map(|l| with(&two, 4, [l])));
    wrong.push(with(&two, 1, [1]));
    wrong.extend([5, 11].map(|at| with(&two, at, [4])));
    // L is right, but no multiple of 6; and it is over 60,000.
    wrong.push(with(&two[..16], 4, [11]));
    wrong.push(write_list(&vec![this; 10_001]));
    wrong
}

#[test]
fn refused_by_7() {
    let list = write_list(&[[4, 2, 1, 3, 0]]);
    for (record, codes) in at_both_versions(&A) {
        let given = |[s, o, right]: [u64; 3]| first_held(&record, &list, s, o, right, record.len());
        for question in [[2, 0, 0], [0, 3, 0], [0, 0, codes - 1]] {
            assert_eq!(given(question), answer(0, 0));
        }
        for beyond in [0, 1, 1 << 8, 1 << 32, u64::MAX - 100] {
            for question in [[3 + beyond, 0, 0], [0, 4 + beyond, 0]] {
                assert_eq!(given(question), answer(7, 0), "{question:?}");
            }
            let [s, o, right] = [1, 3, codes + beyond];
            assert_eq!(given([s, o, right]), answer(7, 0), "{right}");
        }
    }
}

/// The list is looked at whole, also where the right is held before its end or at the start.
#[test]
fn refused_by_16() {
    for (record, _) in at_both_versions(&A) {
        for list in wrong_lists() {
            for s in [1, 2] {
                let given = first_held(&record, &list, s, 3, 2, record.len());
                assert_eq!(given, answer(16, 0), "{:?}", list.get(..12));
            }
        }
    }
}

#[test]
fn refused_by_15_where_the_copy_is_shorter_than_the_record() {
    let list = write_list(&[[4, 2, 1, 3, 0]]);
    let records = [&A[..], &A2, &with_bit(&A, [1, 3], 2)];
    for (record, value) in records.into_iter().zip([2, 2, 1]) {
        for length in 0..record.len() {
            let given = first_held(record, &list, 1, 3, 2, length);
            assert_eq!(given, answer(15, 0), "{length}");
        }
        for length in [record.len(), record.len() + 1, 1000, usize::MAX] {
            let given = first_held(record, &list, 1, 3, 2, length);
            assert_eq!(given, answer(0, value), "{length}");
        }
    }
}

/// Each choice of what is wrong and what is right: of the tests 1 to 5, 7, 15 and 16 the first that fails counts.
#[test]
fn the_order_of_the_tests() {
    let lists = wrong_lists().into_iter().map(|list| (16, list));
    let right_list = (0, write_list(&[[4, 2, 1, 3, 0]]));
    let lists: Vec<_> = lists.chain([right_list]).collect();
    let mut records = wrong_records();
    records.extend([(0, A.to_vec()), (0, A2.to_vec())]);
    let questions = [[3, 3, 2], [1, 4, 2], [1, 3, 32], [1, 3, 2]];
    for (by_record, record) in &records {
        for (by_question, [s, o, right]) in [7, 7, 7, 0].into_iter().zip(questions) {
            for (by_copy, copy) in [(15, 0), (15, record.len().saturating_sub(1)), (0, 99)] {
                for (by_list, list) in &lists {
                    let numbers = [*by_record, by_question, by_copy, *by_list];
                    let first = numbers.into_iter().find(|number| *number != 0);
                    let expected = first.map_or(answer(0, 2), |number| answer(number, 0));
                    let given = first_held(record, list, s, o, right, copy);
                    assert_eq!(given, expected, "{numbers:?}");
                }
            }
        }
    }
}

/// The right comes in by the last of the most commands that a list may have.
#[test]
fn a_long_list() {
    for (record, _) in at_both_versions(&A) {
        let other = [grant(4, [2, 1, 3]), delete(4, [2, 1, 3])];
        let mut list: Vec<_> = other.into_iter().cycle().take(9_999).collect();
        never(&record, &list, [1, 3, 2]);
        list.push(grant(2, [2, 1, 3]));
        after(&record, &list, [1, 3, 2], 10_000);
    }
}
