//! Threads that ask of one record, search one list and convert the record at the same time, and change copies of their own, get the answers
//! that one thread gets.

use std::thread;

use bunvespo::{
    Command, MOST_PLAIN, MOST_RECORD_BYTES, MOST_SUBJECTS, Right, Safety, buffer_size, command,
    commands, encode, first_held, held, new_record, safety, to_version_2, trust_mask, valid,
};

const SUBJECTS: u64 = MOST_SUBJECTS as u64;
const COLUMNS: u64 = SUBJECTS + MOST_PLAIN as u64;

/// The one subject that isn't trusted.
const UNTRUSTED: u64 = 5;

/// The largest station: a chain of subjects, each the owner of the next and, in turn, of the logs.
fn chain() -> Vec<u8> {
    let mut record = new_record(SUBJECTS, MOST_PLAIN.into()).unwrap();
    for s in 1..SUBJECTS {
        command(&mut record, Command::create_subject(s - 1, s)).unwrap();
    }
    for log in SUBJECTS..COLUMNS {
        command(&mut record, Command::create_object(log % SUBJECTS, log)).unwrap();
    }
    record
}

/// The chain destroyed from its middle down, as a list: the owner of each one destroyed is the same, and inherits its logs.
fn destroyed() -> Vec<u8> {
    let middle = SUBJECTS / 2;
    let commands = (middle..SUBJECTS).map(|s| Command::destroy_subject(middle - 1, s));
    encode(&commands.collect::<Vec<_>>()).unwrap()
}

/// Whether a right is held, whether it can be, the buffer after that question, and after how many commands of the list the heir owns the log.
type Answered = (bool, Safety, Vec<u8>, Option<u64>);

/// Questions about each log, a copy of the record in which the list is run, and the record in version 2.
fn all_answers(record: &[u8], list: &[u8]) -> (Vec<Answered>, [Vec<u8>; 2]) {
    let mut answers = Vec::new();
    let (trust, last) = (
        trust_mask((0..SUBJECTS).filter(|&s| s != UNTRUSTED)).unwrap(),
        SUBJECTS - 1,
    );
    for log in SUBJECTS..COLUMNS {
        let mut out = vec![0xEE; buffer_size(MOST_SUBJECTS)];
        let asked = safety(record, trust, last, log, Right::Own, &mut out).unwrap();
        let held = held(record, UNTRUSTED, log, Right::Own).unwrap();
        let (heir, mut copy) = (SUBJECTS / 2 - 1, record.to_vec());
        let inherited = first_held(record, list, heir, log, Right::Own, &mut copy).unwrap();
        answers.push((held, asked, out, inherited));
    }
    let mut copy = record.to_vec();
    for c in commands(list, u64::MAX) {
        command(&mut copy, c).unwrap();
        assert!(valid(&copy));
    }
    let mut wide = vec![0xEE; MOST_RECORD_BYTES];
    assert_eq!(to_version_2(record, &mut wide), Ok(MOST_RECORD_BYTES));
    (answers, [copy, wide])
}

#[test]
fn several_at_once() {
    let (record, list) = (chain(), destroyed());
    let expected = all_answers(&record, &list);
    assert!(expected.0.iter().any(|answer| answer.1 == Safety::Safe));
    assert!(expected.0.iter().any(|answer| answer.1 != Safety::Safe));
    let late = (1 + SUBJECTS - SUBJECTS / 2) / 2;
    assert!(expected.0.iter().any(|answer| answer.3.is_none()));
    assert!(expected.0.iter().any(|answer| answer.3 >= Some(late)));
    thread::scope(|scope| {
        for _ in 0..4 {
            scope.spawn(|| (0..50).for_each(|_| assert_eq!(all_answers(&record, &list), expected)));
        }
    });
    assert_eq!((record, list), (chain(), destroyed()));
}
