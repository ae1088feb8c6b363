//! Records of both versions: the rights that each has room for, in words and in cells, and a record in another version.

use crate::library::{Basic, Refusal, Right, new_record};
use crate::names_file;
use crate::record::{Record, column_of};
use crate::spoken;
use crate::table::short;
use crate::tests::random::{Numbers, station};
use crate::version::Version;

/// A new station in both versions.
fn both() -> [Record; 2] {
    let new = new_record(3, 2).expect("the sizes are in range");
    [Version::One, Version::Two].map(|version| {
        let bytes = version.convert(&new).expect("nothing is in the way");
        Record::open(&bytes).expect("the station is valid")
    })
}

#[test]
fn words_for_versions() {
    assert_eq!(Version::parse("1"), Ok(Version::One));
    assert_eq!(Version::parse("2"), Ok(Version::Two));
    for wrong in ["", "0", "3", "01", "1 ", "one", "-1"] {
        assert!(Version::parse(wrong).is_err(), "{wrong}");
    }
}

/// Each right is read by its word, its code and its name, where the record's version has it; else the version's room is told.
#[test]
fn rights_of_each_version() {
    for (record, last) in both().iter().zip([6, 14]) {
        assert_eq!(record.basics(), last + 1);
        let lines = (0..=last).map(|k| format!("right {k} = name {k}\n"));
        let text: String = lines.collect();
        let names = names_file::parse(&text, &[record]).expect("the names fit");
        let version = record.version();
        let room = format!("which is of version {version} and has the basic rights r0 to r{last}");
        let codes = format!("0 to {} in a record of version {version}", 2 * last + 3);
        for right in Right::ALL {
            let k = right.code().saturating_sub(2) / 2;
            let by_word = spoken::right(&right.to_string(), record, &names);
            let by_code = spoken::right(&right.code().to_string(), record, &names);
            if k <= last {
                let by_name = spoken::right(&names.right_label(right), record, &names);
                assert_eq!(
                    [by_word, by_code, by_name],
                    [Ok(right), Ok(right), Ok(right)]
                );
            } else {
                assert_eq!(by_word, Err(format!("r{k} is beyond the record, {room}")));
                assert!(by_code.unwrap_err().ends_with(&codes));
            }
        }
        let one_more = format!("right {} = x", last + 1);
        let why = names_file::parse(&one_more, &[record])
            .err()
            .unwrap_or_default();
        assert!(why.ends_with(&room), "{why}");
        assert!(spoken::right("32", record, &names).is_err());
    }
}

/// Names that are given for two records may name what one of them has.
#[test]
fn names_for_two_records() {
    let [one, two] = both();
    for records in [[&one, &two], [&two, &one]] {
        let names = names_file::parse("right 14 = bill\nlog 4 = far\n", &records);
        assert!(names.is_ok_and(|names| names.right(Right::Plain(Basic::R14)) == "bill"));
        assert!(names_file::parse("right 15 = x", &records).is_err());
    }
}

/// A cell from its short form.
fn from_short(text: &str, record: &Record) -> u32 {
    let bit_if = |set: bool, code: u64| u32::from(set) << code;
    let mut cell = bit_if(text.contains('o'), 0) | bit_if(text.contains('c'), 1);
    let mut rest = text.trim_start_matches(['o', 'c']);
    while !rest.is_empty() {
        let digits = rest.find([',', '*']).unwrap_or(rest.len());
        let (k, after) = rest.split_at(if record.version() == 1 { 1 } else { digits });
        let k: u64 = k.parse().expect("a number stands here");
        let star = after.starts_with('*');
        cell |= bit_if(!star, 2 + 2 * k) | bit_if(star, 3 + 2 * k);
        rest = after.trim_start_matches('*').trim_start_matches(',');
    }
    cell
}

/// The short form of a cell has every bit of it and can be read in one way alone.
#[test]
fn short_cells() {
    let mut numbers = Numbers::new(12);
    for record in both() {
        let cells = 1 << record.rights().len();
        for _ in 0..20_000 {
            let cell = (numbers.below(cells) & numbers.below(cells)) as u32;
            let text = short(cell, &record);
            assert_eq!(from_short(&text, &record), cell, "{text}");
        }
    }
}

/// What stands in the way of version 1 is what the library refuses, and all else comes back as the same bytes.
#[test]
fn records_in_another_version() {
    let mut numbers = Numbers::new(13);
    let mut refused = 0;
    for _ in 0..3_000 {
        let bytes = station(&mut numbers);
        let record = Record::open(&bytes).expect("the station is valid");
        let in_the_way = record.beyond(1);
        for (login, over, rights) in &in_the_way {
            assert!(rights.iter().all(|right| right.code() > 15));
            let bit = |right: &Right| record.bit(*login, column_of(*over), *right);
            assert!(!rights.is_empty() && rights.iter().all(bit));
        }
        assert!(record.beyond(2).is_empty());
        let wide = Version::Two
            .convert(&bytes)
            .expect("version 2 has room for all");
        match Version::One.convert(&bytes) {
            Err(refusal) => {
                assert_eq!(refusal, Refusal::HighRight);
                assert!(!in_the_way.is_empty() && record.version() == 2);
                refused += 1;
            }
            Ok(narrow) => {
                assert!(in_the_way.is_empty());
                assert_eq!(Version::Two.convert(&narrow), Ok(wide.clone()));
                assert_eq!(Version::One.convert(&wide), Ok(narrow));
            }
        }
        let same = if record.version() == 1 {
            Version::One
        } else {
            Version::Two
        };
        assert_eq!(same.convert(&bytes), Ok(bytes));
    }
    assert!(refused > 200, "{refused}");
}
