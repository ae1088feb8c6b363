//! Whole records of both versions around the limits, in which U alone exists: L and the length fit their version, n and p. Above a limit
//! every call refuses by 3, and neither the record nor the buffer nor the copy nor the output changes, whatever is asked.

use bunvespo::{
    Command, Header, MOST_PLAIN, MOST_RECORD_BYTES, MOST_SUBJECTS, Refusal, Right, Safety, check,
    command, encode, first_held, held, run, safety, to_version_1, to_version_2, valid,
};

/// The record of this version, n and p, which may be above the limits.
fn whole(version: u8, n: u8, p: u8) -> Vec<u8> {
    let mut record = vec![version, 0, 0, 0, 0, n, p];
    let header = Header::read(&record).unwrap();
    let length = header.expected_length();
    record.resize(length, 0);
    record[1..5].copy_from_slice(&(length as u32 - 5).to_be_bytes());
    record[6 + header.cell_bytes()] = 2; // U controls itself
    record
}

/// The bytes that a buffer has before a question, enough for a record of any n.
const BUFFER: [u8; 2000] = [0xEE; 2000];

/// Every call refuses the record by 3, with numbers within its bounds and beyond them, and nothing is written.
fn refused(record: &[u8]) {
    let Header { n, p, .. } = Header::read(record).unwrap();
    assert!(!valid(record));
    assert_eq!(check(record), Err(Refusal::Counts));
    let (mut after, mut out) = (record.to_vec(), BUFFER);
    for number in [0, u64::from(n) - 1, u64::from(n) + u64::from(p), u64::MAX] {
        assert_eq!(
            held(record, number, number, Right::Own),
            Err(Refusal::Counts)
        );
        let create = Command::create_subject(0, number);
        let answer = command(&mut after, create).unwrap_err();
        assert_eq!((answer.refusal, answer.links), (Refusal::Counts, 0));
        for room in [0, BUFFER.len()] {
            let asked = safety(record, number, 0, number, Right::Own, &mut out[..room]);
            assert_eq!(asked, Err(Refusal::Counts));
        }
    }
    let create = encode(&[Command::create_subject(0, 1)]).unwrap();
    for list in [&create[..], &[]] {
        let answer = run(&mut after, list).unwrap_err();
        assert_eq!((answer.refusal, answer.accepted), (Refusal::Counts, 0));
        not_searched(record, list);
    }
    not_converted(record);
    assert_eq!(after, record);
    assert_eq!(out, BUFFER);
}

/// The search of a list refuses the record by 3, with a copy of any length, and nothing is written.
fn not_searched(record: &[u8], list: &[u8]) {
    for room in [0, record.len(), 2 * record.len()] {
        let mut copy = vec![0xEE; room];
        for number in [0, u64::MAX] {
            let answer = first_held(record, list, number, number, Right::Own, &mut copy);
            assert_eq!(answer, Err(Refusal::Counts));
        }
        assert!(copy.iter().all(|byte| *byte == 0xEE));
    }
}

/// Both conversions refuse the record by 3, with an output of any length, and nothing is written.
fn not_converted(record: &[u8]) {
    let before = vec![0xEE; 2 * record.len()];
    for room in [0, record.len(), before.len()] {
        let mut out = before.clone();
        let answer = to_version_1(record, &mut out[..room]);
        assert_eq!(answer, Err(Refusal::Counts));
        let answer = to_version_2(record, &mut out[..room]);
        assert_eq!(answer, Err(Refusal::Counts));
        assert!(out == before);
    }
}

#[test]
fn the_largest_record() {
    for (version, length) in [(1, 12_807), (2, 25_607)] {
        let mut record = whole(version, MOST_SUBJECTS, MOST_PLAIN);
        assert_eq!(record.len(), length);
        let header = check(&record).unwrap();
        assert_eq!((header.n, header.p), (40, 120));
        let (last, last_log) = (39, 159);
        command(&mut record, Command::create_subject(0, last)).unwrap();
        command(&mut record, Command::create_object(last, last_log)).unwrap();
        let mut out = BUFFER;
        let asked = safety(&record, 1 << last, 0, last_log, Right::Own, &mut out);
        assert_eq!(asked, Ok(Safety::Leaks(1)));
        let room = &mut out[..256];
        let asked = safety(&record, 1 << last, 0, last_log, Right::Own, room);
        assert_eq!(asked, Err(Refusal::BufferShort));
    }
    assert_eq!(MOST_RECORD_BYTES, 25_607);
}

#[test]
fn the_largest_record_converted() {
    let [narrow, wide] = [1, 2].map(|version| whole(version, MOST_SUBJECTS, MOST_PLAIN));
    let mut out = [0xEE; MOST_RECORD_BYTES];
    for record in [&narrow, &wide] {
        assert_eq!(to_version_1(record, &mut out), Ok(narrow.len()));
        assert!(out[..narrow.len()] == narrow);
        assert_eq!(to_version_2(record, &mut out), Ok(wide.len()));
        assert!(out[..] == wide);
        let room = &mut out[..narrow.len() - 1];
        assert_eq!(to_version_1(record, room), Err(Refusal::BufferShort));
        let room = &mut out[..wide.len() - 1];
        assert_eq!(to_version_2(record, room), Err(Refusal::BufferShort));
    }
}

#[test]
fn around_the_limits() {
    for version in [1, 2] {
        for n in [1, 2, 39, 40, 41, 42, 63, 64, 65, 128, 255] {
            for p in [0, 1, 119, 120, 121, 122, 191, 192, 193, 255] {
                let record = whole(version, n, p);
                if n <= MOST_SUBJECTS && p <= MOST_PLAIN {
                    assert_eq!(check(&record), Header::read(&record));
                } else {
                    refused(&record);
                }
            }
        }
    }
}
