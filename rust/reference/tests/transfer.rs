//! Transfer of own, code 3, over plain objects, and beside it over subjects (Manual 5). The records are written
//! as version 1, and each transfer is tried at both versions.

use reference::{Answer, Safety, command, held, leaks_by, run, safety, valid, write_list};

#[path = "common/widened.rs"]
mod widened;

use widened::widened;

/// Station A (Manual 11.1), with the log 3, which subject 2 owns.
const A: [u8; 31] = [
    0x01, 0x00, 0x00, 0x00, 0x1A, 0x03, 0x01, //
    0x00, 0x02, 0x00, 0x01, 0x00, 0x00, 0x00, 0x00, //
    0x00, 0x00, 0x00, 0x02, 0x00, 0x01, 0x00, 0x00, //
    0x00, 0x00, 0x00, 0x00, 0x00, 0x02, 0x00, 0x01,
];

/// A record of these rows.
fn record<const COLUMNS: usize>(rows: &[[u16; COLUMNS]]) -> Vec<u8> {
    let (n, p) = (rows.len(), COLUMNS - rows.len());
    let mut record = vec![1];
    record.extend((2 + 2 * n as u32 * COLUMNS as u32).to_be_bytes());
    record.extend([n as u8, p as u8]);
    record.extend(rows.iter().flatten().flat_map(|cell| cell.to_be_bytes()));
    record
}

/// The subjects of station A, and one log with these three cells.
fn log(column: [u16; 3]) -> Vec<u8> {
    let [zero, one, two] = column;
    record(&[
        [0x0002, 0x0001, 0x0000, zero],
        [0x0000, 0x0002, 0x0001, one],
        [0x0000, 0x0000, 0x0002, two],
    ])
}

/// The refusal and the links of code 3 on a record, and the record after it. At version 2 they are the same.
fn transfer(record: &[u8], i: u64, s: u64, o: u64) -> (u64, u64, Vec<u8>) {
    let mut after = record.to_vec();
    let answer = command(&mut after, [3, i, s, o, 0]);
    let mut wide = widened(record);
    assert_eq!(command(&mut wide, [3, i, s, o, 0]), answer);
    assert_eq!(wide, widened(&after));
    (answer.refusal, answer.value, after)
}

/// Asserts that code 3 is accepted with 0 links and leaves this record.
fn moves(before: &[u8], [i, s, o]: [u64; 3], after: &[u8]) {
    assert_eq!(transfer(before, i, s, o), (0, 0, after.to_vec()));
    assert!(valid(after));
}

/// Asserts that code 3 is refused with 0 links and leaves the record as it was.
fn refused(record: &[u8], [i, s, o]: [u64; 3], refusal: u64) {
    assert_eq!(transfer(record, i, s, o), (refusal, 0, record.to_vec()));
}

#[test]
fn a_log_goes_from_one_owner_to_the_next() {
    let after = [
        0x01, 0x00, 0x00, 0x00, 0x1A, 0x03, 0x01, //
        0x00, 0x02, 0x00, 0x01, 0x00, 0x00, 0x00, 0x00, //
        0x00, 0x00, 0x00, 0x02, 0x00, 0x01, 0x00, 0x01, //
        0x00, 0x00, 0x00, 0x00, 0x00, 0x02, 0x00, 0x00,
    ];
    moves(&A, [2, 1, 3], &after);
    // The first owner has nothing more to say over it, and the new one passes it on, to U or back.
    refused(&after, [2, 1, 3], 12);
    moves(&after, [1, 2, 3], &A);
    moves(&after, [1, 0, 3], &log([1, 0, 0]));
}

#[test]
fn nothing_but_own_moves() {
    let before = record(&[
        [0x0002, 0x0001, 0x0004, 0x0000, 0x0001],
        [0x0008, 0x0002, 0x0001, 0x4008, 0x0000],
        [0x0000, 0x0000, 0x0002, 0x800D, 0x0005],
    ]);
    let after = record(&[
        [0x0002, 0x0001, 0x0004, 0x0000, 0x0001],
        [0x0008, 0x0002, 0x0001, 0x4009, 0x0000],
        [0x0000, 0x0000, 0x0002, 0x800C, 0x0005],
    ]);
    moves(&before, [2, 1, 3], &after);
}

#[test]
fn to_oneself_nothing_changes() {
    assert_eq!(A.to_vec(), log([0, 0, 1]));
    moves(&A, [2, 2, 3], &A);
    for column in [[1, 0, 0], [1, 1, 0], [1, 0, 0xFFFD], [1, 1, 1]] {
        moves(&log(column), [0, 0, 3], &log(column));
    }
    // Being oneself does not stand for being an owner.
    refused(&A, [1, 1, 3], 12);
}

#[test]
fn to_an_owner_only_the_initiator_loses_it() {
    moves(&log([0, 1, 1]), [2, 1, 3], &log([0, 1, 0]));
    moves(&log([0, 1, 1]), [1, 2, 3], &log([0, 0, 1]));
    moves(&log([1, 1, 1]), [0, 2, 3], &log([0, 1, 1]));
    moves(&log([0, 9, 5]), [2, 1, 3], &log([0, 9, 4]));
}

#[test]
fn the_other_owners_keep_it() {
    moves(&log([1, 1, 0]), [1, 2, 3], &log([1, 0, 1]));
    moves(&log([0, 1, 1]), [1, 0, 3], &log([1, 0, 1]));
}

#[test]
fn absent_names_are_refused_by_10() {
    // The log is absent, whoever asks.
    let absent_log = log([0, 0, 0]);
    for i in 0..3 {
        for s in 0..3 {
            refused(&absent_log, [i, s, 3], 10);
        }
    }
    // s is absent; then an absent initiator, which is seen first; then both.
    let absent_subject = record(&[[0x0002, 0x0000, 0x0001], [0; 3]]);
    refused(&absent_subject, [0, 1, 2], 10);
    refused(&absent_subject, [1, 0, 2], 8);
    let absent_both = record(&[[0x0002, 0x0000, 0x0000], [0; 3]]);
    refused(&absent_both, [0, 1, 2], 10);
    refused(&absent_both, [1, 1, 2], 8);
}

#[test]
fn who_does_not_own_the_log_is_refused_by_12() {
    for i in 0..2 {
        for s in 0..3 {
            refused(&A, [i, s, 3], 12);
        }
    }
    // No basic right stands for own, nor does control of the owner.
    refused(&log([0, 0xFFFC, 1]), [1, 0, 3], 12);
    let controlled = record(&[[0x0002, 0x0003, 0x0000], [0x0000, 0x0002, 0x0001]]);
    refused(&controlled, [0, 0, 2], 12);
}

/// On each record of three subject names and a log, whatever exists and whoever owns what: the answer and the
/// record after, for all i and s. There is no 9, no 13 and no link, though s may be some links below U.
#[test]
fn all_transfers_of_a_log() {
    // The subject columns: each way in which the subjects 1 and 2 are owned or absent.
    let trees: [[[u16; 3]; 3]; 6] = [
        [[2, 0, 0], [0, 0, 0], [0, 0, 0]],
        [[2, 1, 0], [0, 2, 0], [0, 0, 0]],
        [[2, 0, 1], [0, 0, 0], [0, 0, 2]],
        [[2, 1, 1], [0, 2, 0], [0, 0, 2]],
        [[2, 1, 0], [0, 2, 1], [0, 0, 2]],
        [[2, 0, 1], [0, 2, 0], [0, 1, 2]],
    ];
    let mut answers = [0; 17];
    for tree in trees {
        let exists = |s: usize| tree[s][s] == 2;
        let with = |owners: [bool; 3]| {
            let rows = [0, 1, 2].map(|row| {
                let [zero, one, two] = tree[row];
                [zero, one, two, u16::from(owners[row])]
            });
            record(&rows)
        };
        for bits in 0..8 {
            let owners = [0, 1, 2].map(|s| bits >> s & 1 == 1);
            if (0..3).any(|s| owners[s] && !exists(s)) {
                assert!(!valid(&with(owners)));
                continue;
            }
            for i in 0..3 {
                for s in 0..3 {
                    let expected = if !exists(i) {
                        8
                    } else if !exists(s) || owners == [false; 3] {
                        10
                    } else if !owners[i] {
                        12
                    } else {
                        0
                    };
                    let mut owners_after = owners;
                    if expected == 0 {
                        owners_after[i] = false;
                        owners_after[s] = true;
                    }
                    let answer = transfer(&with(owners), i as u64, s as u64, 3);
                    assert_eq!(answer, (expected, 0, with(owners_after)));
                    assert!(valid(&answer.2));
                    answers[expected as usize] += 1;
                }
            }
        }
    }
    for refusal in [0, 8, 10, 12] {
        assert!(answers[refusal] > 0, "{refusal} occurs");
    }
}

#[test]
fn over_a_subject_there_is_still_the_walk() {
    // Of two names, the subject is walked to and the log is not.
    let both = log([0, 1, 0]);
    let (refusal, links, after) = transfer(&both, 1, 1, 2);
    assert_eq!((refusal, links, after), (0, 1, both.clone()));
    moves(&both, [1, 1, 3], &both);
    // To someone below: a subject is refused with the links to it, the log goes.
    let top = log([1, 0, 0]);
    assert_eq!(transfer(&top, 0, 2, 1), (13, 1, top.clone()));
    assert_eq!(transfer(&top, 0, 1, 1), (13, 0, top.clone()));
    moves(&top, [0, 2, 3], &A);
}

#[test]
fn bounds_are_as_for_a_subject() {
    for fields in [
        [3, 2, 1, 4, 0],
        [3, 2, 1, 3, 1],
        [3, 2, 3, 3, 0],
        [3, 3, 1, 3, 0],
    ] {
        let mut after = A;
        let answer = Answer {
            refusal: 7,
            value: 0,
        };
        assert_eq!(command(&mut after, fields), answer, "{fields:?}");
        assert_eq!(after, A);
    }
}

#[test]
fn in_a_list_each_transfer_meets_the_last_owner() {
    let list = write_list(&[
        [3, 2, 1, 3, 0],
        [3, 1, 0, 3, 0],
        [3, 2, 1, 3, 0],
        [3, 0, 2, 3, 0],
    ]);
    let mut after = A.to_vec();
    let answer = Answer {
        refusal: 12,
        value: 2,
    };
    assert_eq!(run(&mut after, &list), answer);
    assert_eq!(after, log([1, 0, 0]));
    // A log that was destroyed is absent, and one created again has its creator as owner.
    let list = write_list(&[[11, 2, 0, 3, 0], [10, 1, 0, 3, 0], [3, 1, 0, 3, 0]]);
    let mut after = A.to_vec();
    let answer = Answer {
        refusal: 0,
        value: 3,
    };
    assert_eq!(run(&mut after, &list), answer);
    assert_eq!(held(&after, 0, 3, 0).value, 1);
    assert_eq!(after, log([1, 0, 0]));
}

#[test]
fn a_transfer_is_a_leak_list() {
    // Only 2 is untrusted, and gives its log away.
    assert_eq!(safety(&A, 3, 1, 3, 0, 35), Safety::Leaks);
    let one = write_list(&[[3, 2, 1, 3, 0]]);
    assert_eq!(leaks_by(&A, 3, 1, 3, 0, &one), Ok(1));
    // Only U is untrusted: it takes the log over and hands it to 1, which it has to create again.
    assert_eq!(safety(&A, 6, 1, 3, 0, 35), Safety::Leaks);
    let mut commands = vec![
        [13, 0, 1, 0, 0],
        [13, 0, 2, 0, 0],
        [12, 0, 1, 0, 0],
        [3, 0, 1, 3, 0],
    ];
    assert_eq!(leaks_by(&A, 6, 1, 3, 0, &write_list(&commands)), Ok(4));
    // What was given away is no longer the giver's to give.
    commands.push([3, 0, 1, 3, 0]);
    assert!(leaks_by(&A, 6, 1, 3, 0, &write_list(&commands)).is_err());
    // An owner who is trusted gives nothing away, and the others have nothing to give.
    assert_eq!(safety(&A, 7, 1, 3, 0, 35), Safety::Safe);
    assert!(leaks_by(&A, 7, 1, 3, 0, &one).is_err());
}
