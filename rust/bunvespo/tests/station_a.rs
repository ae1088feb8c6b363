//! The examples of the scope paper on its stations A and B, asked through the safe calls. The same stations in version 2 give the same
//! answers.

use bunvespo::{
    Basic, Command, CommandRefused, Refusal, Right, RunRefused, Safety, buffer_size, command,
    commands, encode, first_held, held, run, safety, to_version_1, to_version_2, valid,
};

const R0: Right = Right::Plain(Basic::R0);
const R0_STARRED: Right = Right::Starred(Basic::R0);

const A: [u8; 31] = [
    1, 0, 0, 0, 0x1A, 3, 1, 0, 2, 0, 1, 0, 0, 0, 0, 0, 0, 0, 2, 0, 1, 0, 0, 0, 0, 0, 0, 0, 2, 0, 1,
];

const B: [u8; 19] = [1, 0, 0, 0, 0x0E, 2, 1, 0, 2, 0, 0, 0, 0, 0, 0, 0, 0, 0, 0];

/// A in version 2.
const A_WIDE: [u8; 55] = [
    2, 0, 0, 0, 0x32, 3, 1, // version, L, n, p
    0, 0, 0, 2, 0, 0, 0, 1, 0, 0, 0, 0, 0, 0, 0, 0, // row 0
    0, 0, 0, 0, 0, 0, 0, 2, 0, 0, 0, 1, 0, 0, 0, 0, // row 1
    0, 0, 0, 0, 0, 0, 0, 0, 0, 0, 0, 2, 0, 0, 0, 1, // row 2
];

/// B in version 2.
const B_WIDE: [u8; 31] = [
    2, 0, 0, 0, 0x1A, 2, 1, // version, L, n, p
    0, 0, 0, 2, 0, 0, 0, 0, 0, 0, 0, 0, // row 0
    0, 0, 0, 0, 0, 0, 0, 0, 0, 0, 0, 0, // row 1
];

/// Both versions of A, and both of B.
const ALL_A: [&[u8]; 2] = [&A, &A_WIDE];
const ALL_B: [&[u8]; 2] = [&B, &B_WIDE];

/// The place of the lowest byte of the first cell, in which U controls itself.
fn first_low(record: &[u8]) -> usize {
    if record[0] == 1 { 8 } else { 10 }
}

/// The record with one byte replaced.
fn with(record: &[u8], place: usize, value: u8) -> Vec<u8> {
    let mut record = record.to_vec();
    record[place] = value;
    record
}

/// The refusal of one command and its links, and the record unchanged by it.
fn refused(record: &[u8], c: Command) -> (Refusal, u64) {
    let mut copy = record.to_vec();
    let CommandRefused { refusal, links } = command(&mut copy, c).unwrap_err();
    assert_eq!(copy, record, "a refused command changes no byte");
    (refusal, links)
}

/// The answer to a question on A with a buffer of the right size, and its commands.
fn asked(record: &[u8], trust: u64, s: u64, o: u64, right: Right) -> (Safety, Vec<Command>) {
    let mut out = [0xEE; buffer_size(3)];
    let answer = safety(record, trust, s, o, right, &mut out).unwrap();
    let (count, written) = match answer {
        Safety::Safe => (0, 0),
        Safety::Leaks(count) => (count, 5 + 6 * count as usize),
    };
    assert!(out[written..].iter().all(|&byte| byte == 0xEE));
    (answer, commands(&out, count).collect())
}

#[test]
fn validity() {
    for a in ALL_A {
        assert!(valid(a));
        assert!(valid(&with(a, a.len() - 1, 0)));
        assert!(!valid(&with(a, first_low(a), 0)));
    }
    assert!(ALL_B.into_iter().all(valid));
    assert!(!valid(&[]));
}

#[test]
fn records_turned_down() {
    let asked = |record: &[u8]| held(record, 0, 0, Right::Own);
    assert_eq!(asked(&[1, 0, 0, 0, 4, 1]), Err(Refusal::RecordShort));
    for a in ALL_A {
        for version in [0, 3, 0x81, 0xFF] {
            assert_eq!(asked(&with(a, 0, version)), Err(Refusal::Version));
        }
        let other_version = 3 - a[0];
        let record = with(a, 0, other_version);
        assert_eq!(asked(&record), Err(Refusal::RecordLength));
        assert_eq!(asked(&with(a, 5, 0)), Err(Refusal::Counts));
        let longer = [a, &[0]].concat();
        assert_eq!(asked(&longer), Err(Refusal::RecordLength));
        let nobody = with(a, first_low(a), 0);
        assert_eq!(asked(&nobody), Err(Refusal::NotValid));
    }
}

#[test]
fn rights_held() {
    for a in ALL_A {
        assert_eq!(held(a, 0, 1, Right::Own), Ok(true));
        assert_eq!(held(a, 0, 2, Right::Own), Ok(false));
        assert_eq!(held(a, 2, 2, Right::Control), Ok(true));
        assert_eq!(held(a, 1, 3, R0), Ok(false));
        // 2 owns the log and 1 owns 2: they hold basic rights, and not control.
        assert_eq!(held(a, 2, 3, R0), Ok(true));
        assert_eq!(held(a, 2, 3, Right::Starred(Basic::R6)), Ok(true));
        assert_eq!(held(a, 1, 2, R0), Ok(true));
        assert_eq!(held(a, 1, 2, Right::Control), Ok(false));
        assert_eq!(held(a, 1, 1, R0), Ok(false));
        let transfer = Command::transfer(2, 1, 3, Basic::R0);
        assert_eq!(refused(a, transfer), (Refusal::RightLacking, 0));
        let mut copy = a.to_vec();
        let grant = Command::grant_starred(2, 0, 3, Basic::R6);
        assert_eq!(command(&mut copy, grant), Ok(0));
        assert_eq!(held(&copy, 0, 3, Right::Plain(Basic::R6)), Ok(true));
        assert_eq!(held(&copy, 0, 3, Right::Starred(Basic::R6)), Ok(true));
        assert_eq!(held(a, 3, 0, Right::Own), Err(Refusal::Bounds));
        assert_eq!(held(a, 256, 0, Right::Own), Err(Refusal::Bounds));
        assert_eq!(held(a, 0, u64::MAX, Right::Own), Err(Refusal::Bounds));
    }
}

#[test]
fn commands_turned_down() {
    let c = Command::new;
    for (a, b) in ALL_A.into_iter().zip(ALL_B) {
        let cases = [
            (refused(a, c(14, 255, 0, 0, 0)), (Refusal::Code, 0)),
            (refused(a, c(4, 0, 0, 4, 0)), (Refusal::Bounds, 0)),
            (refused(b, c(12, 1, 1, 0, 0)), (Refusal::InitiatorAbsent, 0)),
            (refused(a, c(6, 2, 1, 3, 0)), (Refusal::Kind, 0)),
            (refused(b, c(11, 0, 0, 2, 0)), (Refusal::NameAbsent, 0)),
            (refused(a, c(12, 0, 1, 0, 0)), (Refusal::NameExists, 0)),
            (refused(a, c(13, 0, 2, 0, 0)), (Refusal::RightLacking, 0)),
            (refused(a, c(8, 2, 1, 3, 0)), (Refusal::NotSet, 0)),
            (refused(a, c(9, 2, 2, 3, 0)), (Refusal::NotSet, 0)),
            (refused(a, c(8, 0, 1, 3, 0)), (Refusal::RightLacking, 0)),
            (refused(a, c(3, 0, 2, 1, 0)), (Refusal::WalkMeets, 1)),
        ];
        for (answer, expected) in cases {
            assert_eq!(answer, expected);
        }
        let mut copy = a.to_vec();
        assert_eq!(command(&mut copy, c(6, 1, 0, 2, 0)), Ok(0));
        assert_eq!(
            refused(&copy, c(6, 1, 0, 2, 0)),
            (Refusal::OtherController, 0)
        );
    }
}

#[test]
fn deletes_of_one_form() {
    for a in ALL_A {
        let (plain, starred) = (Command::delete, Command::delete_starred);
        let (i, s, o, k) = (2, 1, 3, Basic::R0);
        for (grant, delete, other) in [
            (
                Command::grant(i, s, o, k),
                plain(i, s, o, k),
                starred(i, s, o, k),
            ),
            (
                Command::grant_starred(i, s, o, k),
                starred(i, s, o, k),
                plain(i, s, o, k),
            ),
        ] {
            let mut copy = a.to_vec();
            assert_eq!(command(&mut copy, grant), Ok(0));
            assert_eq!(refused(&copy, other), (Refusal::NotSet, 0));
            assert_eq!(command(&mut copy, delete), Ok(0));
            assert_eq!(copy, a);
            assert_eq!(refused(&copy, delete), (Refusal::NotSet, 0));
            // In a list: the first is taken, and the second ends the run.
            let list = encode(&[grant, delete, delete, grant]).unwrap();
            let ended = run(&mut copy, &list).unwrap_err();
            assert_eq!((ended.refusal, ended.accepted), (Refusal::NotSet, 2));
            assert_eq!(copy, a);
        }
    }
}

#[test]
fn ownership_transferred_to_its_owner() {
    for a in ALL_A {
        let mut copy = a.to_vec();
        assert_eq!(command(&mut copy, Command::transfer_own(1, 1, 2)), Ok(1));
        assert_eq!(copy, a);
    }
}

#[test]
fn a_log_changes_owner() {
    let transfer = Command::transfer_own(2, 1, 3);
    let back = encode(&[Command::transfer_own(1, 2, 3)]).unwrap();
    for (a, b) in ALL_A.into_iter().zip(ALL_B) {
        let mut copy = a.to_vec();
        assert_eq!(command(&mut copy, transfer), Ok(0));
        assert_eq!(held(&copy, 1, 3, Right::Own), Ok(true));
        assert_eq!(held(&copy, 2, 3, Right::Own), Ok(false));
        assert_eq!(refused(&copy, transfer), (Refusal::RightLacking, 0));
        assert_eq!(run(&mut copy, &back), Ok(1));
        assert_eq!(copy, a);
        assert_eq!(
            refused(b, Command::transfer_own(0, 0, 2)),
            (Refusal::NameAbsent, 0)
        );
    }
}

#[test]
fn lists_run() {
    let destroy = Command::destroy_subject(1, 2);
    let list = encode(&[destroy, Command::grant(1, 1, 3, Basic::R0), destroy]).unwrap();
    for a in ALL_A {
        let mut copy = a.to_vec();
        let (refusal, accepted) = (Refusal::NameAbsent, 2);
        assert_eq!(run(&mut copy, &list), Err(RunRefused { refusal, accepted }));
        assert_eq!(held(&copy, 1, 3, R0), Ok(true));
        let (refusal, accepted) = (Refusal::ListForm, 0);
        for wrong in [&[][..], &[1, 0, 0, 0, 1, 5], &[2, 0, 0, 0, 0]] {
            let answer = run(&mut copy, wrong);
            assert_eq!(answer, Err(RunRefused { refusal, accepted }));
        }
        assert_eq!(run(&mut copy, &[1, 0, 0, 0, 0]), Ok(0));
    }
}

/// The number of commands after which a right over the log is first held, with a copy that is longer than the record, of which the rest
/// stays.
fn searched(record: &[u8], list: &[u8], s: u64, right: Right) -> Option<u64> {
    let mut copy = [0xEE; 60];
    let answer = first_held(record, list, s, 3, right, &mut copy).unwrap();
    assert!(copy[record.len()..].iter().all(|&byte| byte == 0xEE));
    answer
}

#[test]
fn lists_searched() {
    let destroy = Command::destroy_subject(1, 2);
    let taken = [
        Command::grant_starred(2, 0, 3, Basic::R1),
        Command::delete_starred(2, 0, 3, Basic::R1),
        Command::grant_starred(2, 0, 3, Basic::R1),
        destroy,
    ];
    let again = encode(&taken).unwrap();
    let ended = encode(&[destroy, destroy, Command::grant(1, 0, 3, Basic::R0)]).unwrap();
    for a in ALL_A {
        assert_eq!(searched(a, &again, 2, R0), Some(0)); // by own
        assert_eq!(searched(a, &again, 0, Right::Plain(Basic::R1)), Some(1)); // by the star
        assert_eq!(searched(a, &again, 1, R0), Some(4)); // 1 inherits the log
        assert_eq!(searched(a, &again, 0, R0), None);
        assert_eq!(searched(a, &ended, 1, R0), Some(1));
        assert_eq!(searched(a, &ended, 0, R0), None); // the second is refused
        assert_eq!(searched(a, &[1, 0, 0, 0, 0], 2, Right::Own), Some(0));
        assert_eq!(searched(a, &[1, 0, 0, 0, 0], 1, Right::Own), None);
    }
}

#[test]
fn searches_turned_down() {
    for a in ALL_A {
        let (list, length) = ([1, 0, 0, 0, 0], a.len());
        let refusal = |list: &[u8], s, room| {
            let mut copy = vec![0xEE; room];
            let answer = first_held(a, list, s, 3, R0, &mut copy);
            assert!(answer.is_ok() || copy.iter().all(|&byte| byte == 0xEE));
            answer
        };
        assert_eq!(refusal(&[], 3, 0), Err(Refusal::Bounds));
        assert_eq!(refusal(&[], 1, length - 1), Err(Refusal::BufferShort));
        assert_eq!(refusal(&list, 1, length - 1), Err(Refusal::BufferShort));
        assert_eq!(refusal(&[], 1, length), Err(Refusal::ListForm));
        assert_eq!(refusal(&list, 1, length), Ok(None));
    }
}

#[test]
fn questions_answered() {
    for (a, b) in ALL_A.into_iter().zip(ALL_B) {
        assert_eq!(asked(a, 7, 1, 3, R0).0, Safety::Safe);
        assert_eq!(asked(a, 1, 1, 1, Right::Own).0, Safety::Safe);
        assert_eq!(asked(a, 7, 2, 3, Right::Own).0, Safety::Leaks(0));
        assert_eq!(asked(b, 1, 1, 2, R0_STARRED).0, Safety::Safe);
        for (record, trust, s, o, right) in [
            (a, 5, 1, 3, R0),
            (a, 6, 0, 2, Right::Own),
            (a, 6, 2, 1, Right::Own),
            (b, 0, 1, 2, R0_STARRED),
        ] {
            let (answer, list) = asked(record, trust, s, o, right);
            assert_eq!(answer, Safety::Leaks(list.len() as u64));
            assert!(list.iter().all(|c| trust >> c.i & 1 == 0));
            let mut copy = record.to_vec();
            for c in list {
                command(&mut copy, c).unwrap();
            }
            assert_eq!(held(&copy, s, o, right), Ok(true));
        }
    }
}

#[test]
fn questions_turned_down() {
    for a in ALL_A {
        let short = &mut [0; 34];
        let refusal = safety(a, 7, 1, 3, R0, short);
        assert_eq!(refusal, Err(Refusal::BufferShort));
        assert_eq!(safety(a, 8, 1, 3, R0, &mut []), Err(Refusal::Bounds));
        assert_eq!(safety(a, 7, 1, 3, R0, &mut [0; 35]), Ok(Safety::Safe));
    }
}

/// Both versions of a station become each of the two, by a copy or by a conversion, and bytes after the new record stay.
#[test]
fn conversions() {
    for [narrow, wide] in [ALL_A, ALL_B] {
        for record in [narrow, wide] {
            let mut out = [0xEE; 60];
            assert_eq!(to_version_1(record, &mut out), Ok(narrow.len()));
            assert_eq!(out[..narrow.len()], *narrow);
            assert!(out[narrow.len()..].iter().all(|byte| *byte == 0xEE));
            assert_eq!(to_version_2(record, &mut out), Ok(wide.len()));
            assert_eq!(out[..wide.len()], *wide);
            assert!(out[wide.len()..].iter().all(|byte| *byte == 0xEE));
        }
    }
}
