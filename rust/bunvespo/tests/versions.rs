//! Records of version 2: the basic rights that version 1 has no room for, in every call, and the two conversions.

use bunvespo::{
    Basic, Command, Header, MOST_RECORD_BYTES, MOST_SUBJECTS, Refusal, Right, Safety, buffer_size,
    check, command, encode, first_held, held, new_record, raw, run, safety, to_version_1,
    to_version_2, witness,
};

/// A conversion.
type Conversion = fn(&[u8], &mut [u8]) -> Result<usize, Refusal>;

const CONVERSIONS: [Conversion; 2] = [to_version_1, to_version_2];

const SUBJECTS: u64 = 3;
const LOG: u64 = 3;

/// Three subjects and a log: U owns subject 1, subject 1 owns subject 2, subject 2 owns the log.
fn narrow() -> Vec<u8> {
    let mut record = new_record(SUBJECTS, 1).unwrap();
    command(&mut record, Command::create_subject(0, 1)).unwrap();
    command(&mut record, Command::create_subject(1, 2)).unwrap();
    command(&mut record, Command::create_object(2, LOG)).unwrap();
    record
}

/// A record in the version that a conversion gives.
fn converted(conversion: Conversion, record: &[u8]) -> Vec<u8> {
    let mut out = vec![0xEE; MOST_RECORD_BYTES];
    let length = conversion(record, &mut out).unwrap();
    out.truncate(length);
    out
}

fn wide() -> Vec<u8> {
    converted(to_version_2, &narrow())
}

/// The record after a command that is accepted.
fn after(record: &[u8], accepted: Command) -> Vec<u8> {
    let mut record = record.to_vec();
    command(&mut record, accepted).unwrap();
    record
}

/// The rights of a basic right, without the star and with it.
fn forms(k: Basic) -> [Right; 2] {
    [Right::Plain(k), Right::Starred(k)]
}

/// Every right of the record's version can be granted, held, transferred and deleted; each one above it is refused by 7 everywhere.
#[test]
fn the_rights_of_each_version() {
    for record in [narrow(), wide()] {
        let header = check(&record).unwrap();
        for k in Basic::ALL {
            if k.number() < header.basic_rights() {
                granted(&record, k);
            } else {
                out_of_range(&record, k);
            }
        }
        let beyond = header.rights().len() as u64;
        for right in [beyond, beyond + 1, 32, 33, 256, 1 << 32, u64::MAX] {
            // SAFETY: the pointer and the length are those of a slice, which the call only reads.
            let answer = unsafe { raw::bunvespo_held(record.as_ptr(), record.len(), 0, 0, right) };
            assert_eq!((answer.refusal, answer.value), (7, 0));
        }
    }
}

/// A basic right that the record has: given with the star and without, and held by its own bit, or plain by the starred one.
fn granted(record: &[u8], k: Basic) {
    let [plain, starred] = forms(k);
    let with_star = after(record, Command::grant_starred(2, 0, LOG, k));
    let both = after(&with_star, Command::transfer(0, 0, LOG, k));
    let without = after(&both, Command::delete_starred(2, 0, LOG, k));
    let passed_on = after(&with_star, Command::transfer_starred(0, 1, LOG, k));
    for (record, s, bits, is_held) in [
        (record, 0, [false, false], [false, false]),
        (&with_star, 0, [false, true], [true, true]),
        (&both, 0, [true, true], [true, true]),
        (&without, 0, [true, false], [true, false]),
        (&passed_on, 1, [false, true], [true, true]),
    ] {
        let cell = Header::read(record).unwrap().cell(record, s, LOG).unwrap();
        assert_eq!([plain, starred].map(|right| right.in_cell(cell)), bits);
        let asked = [plain, starred].map(|right| held(record, s, LOG, right));
        assert_eq!(asked, is_held.map(Ok));
    }
    let list = witness(record, 6, 0, LOG, starred).unwrap().unwrap();
    let (bytes, mut copy) = (encode(&list).unwrap(), record.to_vec());
    let searched = first_held(record, &bytes, 0, LOG, starred, &mut copy);
    assert_eq!(searched, Ok(Some(list.len() as u64)));
    let last = list.into_iter().fold(record.to_vec(), |r, c| after(&r, c));
    assert_eq!(held(&last, 0, LOG, starred), Ok(true));
}

/// A basic right that the record has no room for.
fn out_of_range(record: &[u8], k: Basic) {
    let mut copy = record.to_vec();
    for begun in [
        Command::transfer(2, 0, LOG, k),
        Command::transfer_starred(2, 0, LOG, k),
        Command::grant(2, 0, LOG, k),
        Command::grant_starred(2, 0, LOG, k),
        Command::delete(2, 0, LOG, k),
        Command::delete_starred(2, 0, LOG, k),
    ] {
        let refused = command(&mut copy, begun).unwrap_err();
        assert_eq!((refused.refusal, refused.links), (Refusal::Bounds, 0));
        let refused = run(&mut copy, &encode(&[begun]).unwrap()).unwrap_err();
        assert_eq!((refused.refusal, refused.accepted), (Refusal::Bounds, 0));
    }
    assert_eq!(copy, record);
    let mut out = [0xEE; buffer_size(MOST_SUBJECTS)];
    for right in forms(k) {
        assert_eq!(held(record, 0, LOG, right), Err(Refusal::Bounds));
        let searched = first_held(record, &[], 0, LOG, right, &mut out);
        assert_eq!(searched, Err(Refusal::Bounds));
        let asked = safety(record, 0, 0, LOG, right, &mut out);
        assert_eq!(asked, Err(Refusal::Bounds));
    }
    assert_eq!(out, [0xEE; buffer_size(MOST_SUBJECTS)]);
}

/// 15 is not in the range of k of any version, and 14 is in that of version 2.
#[test]
fn numbers_of_basic_rights() {
    let record = wide();
    for (k, expected) in [
        (14, Ok(0)),
        (15, Err(Refusal::Bounds)),
        (256, Err(Refusal::Bounds)),
    ] {
        let answer = command(&mut record.clone(), Command::new(5, 2, 0, LOG, k));
        assert_eq!(answer.map_err(Refusal::from), expected);
    }
}

/// The state is kept: every right of version 1 over every column is held in the new record exactly where it was.
#[test]
fn conversions_keep_the_state() {
    let mut record = narrow();
    for k in Basic::ALL.into_iter().take(7) {
        let (s, o) = (k.number() % SUBJECTS, 1 + k.number() % LOG);
        command(&mut record, Command::grant_starred(o - 1, s, o, k)).unwrap();
    }
    let new = converted(to_version_2, &record);
    assert_eq!(check(&new).unwrap().version, 2);
    assert_eq!(converted(to_version_1, &new), record);
    assert_eq!(converted(to_version_1, &record), record);
    assert_eq!(converted(to_version_2, &new), new);
    for right in check(&record).unwrap().rights() {
        for (s, o) in (0..SUBJECTS).flat_map(|s| (0..=LOG).map(move |o| (s, o))) {
            assert_eq!(held(&new, s, o, *right), held(&record, s, o, *right));
        }
    }
}

/// The constructor of a command over a basic right.
type Makes = fn(u64, u64, u64, Basic) -> Command;

/// One right above 6, in any cell and of either form: 18 for every output, and nothing is written. Without it the record is converted.
#[test]
fn rights_without_room() {
    let record = wide();
    for k in &Basic::ALL[7..] {
        for o in 1..=LOG {
            for (grant, delete) in [
                (Command::grant as Makes, Command::delete as Makes),
                (Command::grant_starred, Command::delete_starred),
            ] {
                let high = after(&record, grant(o - 1, 2, o, *k));
                for room in [0, 30, 31, 55, MOST_RECORD_BYTES] {
                    let mut out = vec![0xEE; room];
                    assert_eq!(to_version_1(&high, &mut out), Err(Refusal::HighRight));
                    assert!(out.iter().all(|byte| *byte == 0xEE));
                }
                assert_eq!(converted(to_version_2, &high), high);
                let low = after(&high, delete(o - 1, 2, o, *k));
                assert_eq!(converted(to_version_1, &low), narrow());
            }
        }
    }
    let six = after(&record, Command::grant_starred(2, 0, LOG, Basic::R6));
    assert_eq!(converted(to_version_2, &converted(to_version_1, &six)), six);
}

/// Outputs of every length: 15 below the new record's, with nothing written; else the new record, with the later bytes as they were.
#[test]
fn outputs_of_every_length() {
    let (narrow, wide) = (narrow(), wide());
    for record in [&narrow, &wide] {
        for (conversion, new) in CONVERSIONS.into_iter().zip([&narrow, &wide]) {
            for room in 0..2 * wide.len() {
                let mut out = vec![0xEE; room];
                let answer = conversion(record, &mut out);
                let written = if room < new.len() { 0 } else { new.len() };
                let expected = if written == 0 {
                    Err(Refusal::BufferShort)
                } else {
                    Ok(written)
                };
                assert_eq!(answer, expected);
                assert_eq!(out[..written], new[..written]);
                assert!(out[written..].iter().all(|byte| *byte == 0xEE));
            }
        }
    }
}

/// The refusals 1 to 5 come before 18 and 15.
#[test]
fn records_that_are_not_converted() {
    let high = after(&wide(), Command::grant(2, 0, LOG, Basic::R14));
    let with = |place: usize, value: u8| {
        let mut record = high.clone();
        record[place] = value;
        record
    };
    let cases = [
        (high[..6].to_vec(), Refusal::RecordShort),
        (with(0, 0), Refusal::Version),
        (with(0, 3), Refusal::Version),
        (with(5, 0), Refusal::Counts),
        (with(0, 1), Refusal::RecordLength),
        ([&high[..], &[0]].concat(), Refusal::RecordLength),
        (with(10, 0), Refusal::NotValid),
        (Vec::new(), Refusal::RecordShort),
    ];
    for (record, refusal) in cases {
        for conversion in CONVERSIONS {
            for room in [0, MOST_RECORD_BYTES] {
                let mut out = vec![0xEE; room];
                assert_eq!(conversion(&record, &mut out), Err(refusal));
                assert!(out.iter().all(|byte| *byte == 0xEE));
            }
        }
    }
}

/// A question about a right above 6, with everybody trusted but subject 2, who owns the log.
#[test]
fn questions_about_rights_above_six() {
    let record = wide();
    for right in forms(Basic::R14) {
        let mut out = [0xEE; buffer_size(3)];
        let answer = safety(&record, 3, 0, LOG, right, &mut out);
        assert_eq!(answer, Ok(Safety::Leaks(1)));
        assert_eq!(
            safety(&record, 7, 0, LOG, right, &mut out),
            Ok(Safety::Safe)
        );
    }
}
