//! The worked examples of docs/MANUAL.md: the rows of its section 11, and the example of each refusal.

use reference::{
    Answer, Safety, command, held, leaks_by, read, run, safety, to_version_1, to_version_2, valid,
    write, write_list,
};

/// Station A (Manual 11.1).
fn a() -> Vec<u8> {
    vec![
        0x01, 0x00, 0x00, 0x00, 0x1A, 0x03, 0x01, //
        0x00, 0x02, 0x00, 0x01, 0x00, 0x00, 0x00, 0x00, //
        0x00, 0x00, 0x00, 0x02, 0x00, 0x01, 0x00, 0x00, //
        0x00, 0x00, 0x00, 0x00, 0x00, 0x02, 0x00, 0x01,
    ]
}

/// Station B (Manual 11.1).
fn b() -> Vec<u8> {
    vec![
        0x01, 0x00, 0x00, 0x00, 0x0E, 0x02, 0x01, //
        0x00, 0x02, 0x00, 0x00, 0x00, 0x00, //
        0x00, 0x00, 0x00, 0x00, 0x00, 0x00,
    ]
}

/// The record with one byte changed.
fn with_byte(mut record: Vec<u8>, at: usize, byte: u8) -> Vec<u8> {
    record[at] = byte;
    record
}

/// A command's answer on a record; the record must be unchanged by a refusal.
fn on(record: &[u8], fields: [u64; 5]) -> (u64, u64) {
    let mut after = record.to_vec();
    let Answer { refusal, value } = command(&mut after, fields);
    assert!(
        refusal == 0 || after == record,
        "a refusal changed the record"
    );
    (refusal, value)
}

/// A safety question with a buffer that is long enough.
fn asked(record: &[u8], trust: u64, s: u64, o: u64, right: u64) -> Safety {
    safety(record, trust, s, o, right, 1000)
}

#[test]
fn refusals_of_the_record() {
    let short = [0x01, 0x00, 0x00, 0x00, 0x04, 0x01];
    let mut long = a();
    long.push(0);
    let examples = [
        (1, short.to_vec()),
        (2, with_byte(a(), 0, 0)),
        (3, with_byte(a(), 5, 0)),
        (4, long),
        // Byte 0 is that of version 2, for which L and the length are wrong.
        (4, with_byte(a(), 0, 2)),
        (5, with_byte(a(), 8, 0)),
    ];
    for (refusal, record) in examples {
        let value = 0;
        assert_eq!(read(&record), Err(refusal));
        assert!(!valid(&record));
        assert_eq!(held(&record, 99, 99, 99), Answer { refusal, value });
        assert_eq!(on(&record, [99; 5]), (refusal, 0));
        assert_eq!(run(&mut record.clone(), &[]), Answer { refusal, value });
        assert_eq!(safety(&record, 99, 99, 99, 99, 0), Safety::Refused(refusal));
        for convert in [to_version_1, to_version_2] {
            assert_eq!(convert(&record, &mut []), Answer { refusal, value });
        }
    }
}

#[test]
fn refusals_of_a_command() {
    assert_eq!(on(&a(), [14, 0, 0, 0, 0]), (6, 0));
    assert_eq!(on(&a(), [0, 99, 0, 0, 0]), (6, 0));
    assert_eq!(on(&a(), [4, 0, 0, 4, 0]), (7, 0));
    assert_eq!(on(&b(), [12, 1, 1, 0, 0]), (8, 0));
    assert_eq!(on(&a(), [6, 2, 1, 3, 0]), (9, 0));
    assert_eq!(on(&b(), [11, 0, 0, 2, 0]), (10, 0));
    assert_eq!(on(&a(), [12, 0, 1, 0, 0]), (11, 0));
    assert_eq!(on(&a(), [13, 0, 2, 0, 0]), (12, 0));
    assert_eq!(on(&a(), [3, 0, 2, 1, 0]), (13, 1));
}

#[test]
fn second_controller_is_refused() {
    let mut record = a();
    let grant = [6, 1, 0, 2, 0];
    assert_eq!(command(&mut record, grant).refusal, 0);
    assert_eq!(on(&record, grant), (14, 0));
}

#[test]
fn unused_fields_and_bounds_are_refused_by_7() {
    for fields in [
        [10, 0, 1, 3, 0],
        [12, 0, 1, 1, 0],
        [13, 1, 2, 0, 1],
        [3, 1, 1, 2, 1],
        [4, 3, 0, 0, 0],
        [4, 0, 3, 0, 0],
        [4, 0, 0, 0, 7],
        [4, 1 << 32, 0, 0, 0],
    ] {
        assert_eq!(on(&a(), fields), (7, 0), "{fields:?}");
    }
}

#[test]
fn refusals_of_questions() {
    for (s, o, right) in [(3, 0, 0), (0, 4, 0), (0, 0, 16)] {
        assert_eq!(held(&a(), s, o, right).refusal, 7);
        assert_eq!(safety(&a(), 0, s, o, right, 0), Safety::Refused(7));
    }
    assert_eq!(safety(&a(), 8, 0, 0, 0, 34), Safety::Refused(7));
    assert_eq!(safety(&a(), 7, 1, 3, 2, 34), Safety::Refused(15));
    // One byte more is enough.
    assert_eq!(safety(&a(), 7, 1, 3, 2, 35), Safety::Safe);
}

#[test]
fn refusals_of_a_list() {
    let refused = Answer {
        refusal: 16,
        value: 0,
    };
    let ten_thousand = write_list(&vec![[4, 1, 1, 2, 0]; 10_000]);
    let one_beyond = write_list(&vec![[4, 1, 1, 2, 0]; 10_001]);
    let mut wrong_length_byte = ten_thousand.clone();
    wrong_length_byte[5 + 6 * 9_999] = 6;
    for list in [
        vec![0x01, 0x00, 0x00, 0x00, 0x01, 0x05],
        vec![1, 0, 0, 0],
        vec![2, 0, 0, 0, 0],
        vec![1, 0, 0, 0, 6],
        one_beyond,
        wrong_length_byte,
    ] {
        let mut record = a();
        assert_eq!(run(&mut record, &list), refused);
        assert_eq!(record, a());
    }
    let all = Answer {
        refusal: 0,
        value: 10_000,
    };
    assert_eq!(run(&mut a(), &ten_thousand), all);
}

#[test]
fn a_run_stops_at_the_first_refused_command() {
    let list = write_list(&[[13, 1, 2, 0, 0], [13, 1, 2, 0, 0], [4, 1, 1, 3, 0]]);
    let mut record = a();
    let answer = Answer {
        refusal: 10,
        value: 1,
    };
    assert_eq!(run(&mut record, &list), answer);
    let mut after_first = a();
    command(&mut after_first, [13, 1, 2, 0, 0]);
    assert_eq!(record, after_first);
    assert_eq!(
        run(&mut record, &[1, 0, 0, 0, 0]),
        Answer {
            refusal: 0,
            value: 0
        }
    );
}

#[test]
fn records_are_read_and_written_as_the_same_bytes() {
    // Log 3 is absent with last byte 00, and the record still valid.
    for record in [a(), b(), with_byte(a(), 30, 0)] {
        assert!(valid(&record));
        assert_eq!(write(&read(&record).unwrap()), record);
    }
}

#[test]
fn transfer_of_own_reports_links() {
    assert_eq!(on(&a(), [3, 1, 1, 2, 0]), (0, 1));
    let mut record = a();
    command(&mut record, [3, 1, 1, 2, 0]);
    assert_eq!(record, a(), "own handed to oneself");
    // The walk starts at s itself, so s = o is met after no link.
    assert_eq!(on(&a(), [3, 1, 2, 2, 0]), (13, 0));
    assert_eq!(on(&a(), [3, 1, 0, 2, 0]), (0, 0));
}

#[test]
fn deleting_r_leaves_the_star() {
    let mut record = a();
    for fields in [[4, 2, 1, 3, 6], [5, 2, 1, 3, 6], [8, 1, 1, 3, 6]] {
        assert_eq!(command(&mut record, fields).refusal, 0);
    }
    assert_eq!(held(&record, 1, 3, 14).value, 1);
    assert_eq!(command(&mut record, [9, 2, 1, 3, 6]).refusal, 0);
    assert_eq!(held(&record, 1, 3, 14).value, 0);
    assert_eq!(record, a());
}

/// A record, the trust mask, s, o and right of a question on it, and the commands by which it leaks.
type Leaking = (Vec<u8>, [u64; 4], &'static [[u8; 5]]);

#[test]
fn worked_safety_questions() {
    assert_eq!(asked(&a(), 7, 1, 3, 2), Safety::Safe);
    assert_eq!(asked(&a(), 1, 1, 1, 0), Safety::Safe);
    assert_eq!(asked(&b(), 1, 1, 2, 3), Safety::Safe);
    let leaking: [Leaking; 5] = [
        (a(), [5, 1, 3, 2], &[[13, 1, 2, 0, 0], [4, 1, 1, 3, 0]]),
        (a(), [7, 2, 3, 0], &[]),
        (a(), [6, 0, 2, 0], &[[13, 0, 1, 0, 0]]),
        (
            a(),
            [6, 2, 1, 0],
            &[[13, 0, 1, 0, 0], [12, 0, 1, 0, 0], [3, 0, 2, 1, 0]],
        ),
        (
            b(),
            [0, 1, 2, 3],
            &[[10, 0, 0, 2, 0], [12, 0, 1, 0, 0], [5, 0, 1, 2, 0]],
        ),
    ];
    for (record, [trust, s, o, right], commands) in leaking {
        assert_eq!(asked(&record, trust, s, o, right), Safety::Leaks);
        let list = write_list(commands);
        assert_eq!(
            leaks_by(&record, trust, s, o, right, &list),
            Ok(commands.len())
        );
    }
}

#[test]
fn wrong_leak_lists_are_found() {
    let with = |commands: &[[u8; 5]]| leaks_by(&a(), 5, 1, 3, 2, &write_list(commands));
    assert!(with(&[]).is_err(), "not held at the start");
    assert!(with(&[[4, 2, 1, 3, 0]]).is_err(), "2 is trusted");
    assert!(with(&[[4, 1, 1, 3, 0]]).is_err(), "1 does not own log 3");
    assert!(with(&[[13, 1, 2, 0, 0]; 6]).is_err(), "over n + 2");
    assert!(
        with(&[[10, 1, 0, 4, 0], [13, 1, 2, 0, 0], [4, 1, 1, 3, 0]]).is_err(),
        "name 4 is beyond the record"
    );
    let mut longer = write_list(&[[13, 1, 2, 0, 0], [4, 1, 1, 3, 0]]);
    assert_eq!(leaks_by(&a(), 5, 1, 3, 2, &longer), Ok(2));
    longer.push(0);
    assert!(leaks_by(&a(), 5, 1, 3, 2, &longer).is_err());
}
