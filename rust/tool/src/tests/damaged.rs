//! The reasons that `check` prints agree with the library's refusal on 100,000 damaged records of both versions, and each kind of
//! reason occurs.

use std::collections::BTreeMap;

use crate::faults::{faults, reasons};
use crate::library::{
    Header, MOST_PLAIN, MOST_RECORD_BYTES, MOST_SUBJECTS, Refusal, Right, check, valid,
};
use crate::names::Names;
use crate::tests::random::{Numbers, station};

const RECORDS: u64 = 100_000;

/// A part of each sentence that a fault may have.
fn kinds() -> Vec<String> {
    let of_sizes = [
        format!("says 0 logins, and a record has 1 to {MOST_SUBJECTS}"),
        format!("says {} logins", MOST_SUBJECTS + 1),
        format!(
            "says {} logs, and a record has 0 to {MOST_PLAIN}",
            MOST_PLAIN + 1
        ),
        format!("more than {MOST_RECORD_BYTES} bytes"),
    ];
    let others = [
        "of the 7 bytes",
        "its version, byte 0, is 0, and",
        "its version, byte 0, is 3, and",
        "more bytes, and in a record of version 1 with",
        "more bytes, and in a record of version 2 with",
        " bytes, and a record of version 1 with",
        " bytes, and a record of version 2 with",
        "does not control itself, so it is absent",
        "has no owner, so it is absent",
        "a log has no controller",
        "is U, and does not exist",
        "is U, but is owned by",
        "is U, but is controlled by",
        " owners: ",
        " controllers besides itself: ",
        "is above itself",
        "owns itself",
    ];
    let others = others.into_iter().map(String::from);
    of_sizes.into_iter().chain(others).collect()
}

#[test]
fn reasons_agree_with_the_library() {
    let kinds = kinds();
    let mut numbers = Numbers::new(11);
    let mut seen: BTreeMap<&str, u64> = BTreeMap::new();
    let mut by_refusal = [0; 6];
    for _ in 0..RECORDS {
        let mut record = station(&mut numbers);
        for _ in 0..1 + numbers.below(3) {
            damage(&mut record, &mut numbers);
        }
        let refusal = check(&record).err();
        let number = refusal.map_or(0, |refusal| refusal.number());
        let all = faults(&record, &Names::default());
        assert!(
            all.iter().all(|fault| fault.refusal == number),
            "{record:?}"
        );
        assert_eq!(all.is_empty(), valid(&record), "{record:?}");
        assert_eq!(
            all.len(),
            reasons(&record, refusal, &Names::default()).len()
        );
        by_refusal[usize::from(number)] += 1;
        for fault in &all {
            for kind in kinds.iter().filter(|kind| fault.sentence.contains(*kind)) {
                *seen.entry(kind).or_default() += 1;
            }
        }
    }
    assert!(
        by_refusal.iter().all(|count| *count > 500),
        "{by_refusal:?}"
    );
    for kind in &kinds {
        assert!(
            seen.get(kind.as_str()).is_some_and(|count| *count > 20),
            "{kind}: {seen:?}"
        );
    }
}

/// A record of any version and sizes, with the length that belongs to them. Where it has logins, U alone exists.
fn whole(version: u8, n: u8, p: u8) -> Vec<u8> {
    let width = if version == 1 { 2 } else { 4 };
    let cells = width * usize::from(n) * (usize::from(n) + usize::from(p));
    let mut record = vec![version];
    record.extend((2 + cells as u32).to_be_bytes());
    record.extend([n, p]);
    record.resize(6 + width, 0);
    record.push(2);
    record.resize(7 + cells, 0);
    record
}

/// Of whole records exactly those beyond the limits are refused, each with the sizes that are wrong.
#[test]
fn sizes_of_whole_records() {
    let sizes = |n| (0..=u8::MAX).flat_map(move |p| [(1, n, p), (2, n, p)]);
    for (version, n, p) in (0..=u8::MAX).flat_map(sizes) {
        let mut wrong = Vec::new();
        if n == 0 || n > MOST_SUBJECTS {
            wrong.push(format!(
                "byte 5 says {n} logins, and a record has 1 to {MOST_SUBJECTS}"
            ));
        }
        if p > MOST_PLAIN {
            wrong.push(format!(
                "byte 6 says {p} logs, and a record has 0 to {MOST_PLAIN}"
            ));
        }
        let wanted = wrong.join("; ");
        let record = whole(version, n, p);
        let refusal = (!wanted.is_empty()).then_some(Refusal::Counts);
        assert_eq!(check(&record).err(), refusal, "{version} {n} {p}");
        let told = faults(&record, &Names::default());
        let told: Vec<String> = told.into_iter().map(|fault| fault.sentence).collect();
        assert_eq!(told.concat(), wanted, "{version} {n} {p}");
    }
}

/// Changes some bytes. Not each damage makes a record invalid.
fn damage(record: &mut Vec<u8>, numbers: &mut Numbers) {
    if record.len() < 8 {
        return;
    }
    let length = record.len() as u64;
    match numbers.below(24) {
        0 => {
            let any = numbers.below(256) as u8;
            record[0] = numbers.pick(&[0, 1, 2, 3, any]);
        }
        1 => record[5] = numbers.pick(&[0, 1, 2, MOST_SUBJECTS, MOST_SUBJECTS + 1, 255]),
        2 => record[6] = numbers.pick(&[0, 1, MOST_PLAIN, MOST_PLAIN + 1, 255]),
        3 => record[1 + numbers.below(4) as usize] ^= 1 << numbers.below(8),
        4 => record.truncate(numbers.below(length) as usize),
        5 => record.resize(record.len() + 1 + numbers.below(9) as usize, 0),
        6 => record.truncate(numbers.below(9) as usize),
        7 if numbers.below(9) == 0 => record.resize(MOST_RECORD_BYTES + 1, 0),
        8..16 => {
            let byte = 7 + numbers.below(length - 7) as usize;
            record[byte] ^= 1 << numbers.below(8);
        }
        _ => damage_matrix(record, numbers),
    }
}

/// Changes own or control of logins, or moves a login below another.
fn damage_matrix(record: &mut [u8], numbers: &mut Numbers) {
    let header = Header::read(record).expect("a record has a header");
    let (n, columns) = (u64::from(header.n), u64::from(header.columns()));
    if n == 0 || record.len() != header.expected_length() {
        return;
    }
    let bound = numbers.pick(&[n, n, columns]);
    let (s, o) = (numbers.below(n), numbers.below(bound));
    let put = |record: &mut [u8], s: u64, o: u64, right: Right, set: bool| {
        let place = (s * columns + o) as usize;
        let low = Header::SIZE + header.cell_bytes() * (place + 1) - 1;
        let bit = 1 << right.code();
        record[low] = if set {
            record[low] | bit
        } else {
            record[low] & !bit
        };
    };
    match numbers.below(5) {
        0 => put(record, s, o, Right::Own, true),
        1 => {
            put(record, s, o, Right::Control, true);
            put(record, numbers.below(n), o, Right::Control, true);
        }
        2 => put(record, o.min(n - 1), o, Right::Control, false),
        3 => (0..n).for_each(|s| put(record, s, o, Right::Own, false)),
        _ => {
            (0..n).for_each(|s| put(record, s, o, Right::Own, false));
            put(record, s, o, Right::Own, true);
        }
    }
}
