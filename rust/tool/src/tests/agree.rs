//! What the tool says and does beside the library: differences, sentences of commands, refusals in words, impossible rights, long runs.

use std::collections::BTreeSet;

use crate::changes::{Changes, changes};
use crate::command_text::{Ran, read};
use crate::library::{Basic, Command, Header, Refusal, Right, command, held, new_record, witness};
use crate::names::Names;
use crate::record::{Name, Record, column_of};
use crate::sentence::{numbers as five, parse, sentence};
use crate::tests::random::{LARGEST, Numbers, any_command, station};
use crate::version::Version;
use crate::why;

fn open(bytes: &[u8]) -> Record {
    Record::open(bytes).expect("the station is valid")
}

/// Names for all of a station, some with a space.
fn names_for_all(record: &Record) -> Names {
    let mut names = Names::default();
    for column in 0..record.columns() {
        let space = if column % 3 == 0 { " " } else { "-" };
        names
            .of_names
            .insert(record.name(column), format!("name{space}{column}"));
    }
    names
}

/// What differs where the new record is of a version: a right that the version has no room for is not held there any more.
fn in_version(mut changes: Changes, version: Version) -> Changes {
    let codes = match version {
        Version::One => 16,
        Version::Two => 32,
    };
    for moved in &mut changes.moved {
        moved.still_by = moved.still_by.filter(|_| moved.right.code() < codes);
    }
    changes
}

#[test]
fn differences_make_the_new_record_of_the_old() {
    let mut numbers = Numbers::new(1);
    for _ in 0..2_000 {
        let old = station(&mut numbers);
        let mut new = old.clone();
        let header = Header::read(&old).expect("a record has a header");
        let (columns, width) = (u64::from(header.columns()), header.cell_bytes());
        for _ in 0..numbers.below(12) {
            let _ = command(&mut new, any_command(&mut numbers, &old));
        }
        let (before, after) = (open(&old), open(&new));
        let differences = changes(&before, &after);
        let mut made = old.clone();
        for moved in &differences.moved {
            let place = (moved.login * columns + column_of(moved.over)) as usize;
            let after_cell = Header::SIZE + width * (place + 1);
            let code = moved.right.code();
            made[after_cell - 1 - (code / 8) as usize] ^= 1 << (code % 8);
            assert_eq!(
                after.bit(moved.login, column_of(moved.over), moved.right),
                moved.gained
            );
            let still = held(&new, moved.login, column_of(moved.over), moved.right);
            assert_eq!(still, Ok(moved.gained || moved.still_by.is_some()));
        }
        assert_eq!(made, new);
        assert_eq!(differences.is_empty(), old == new);
        // Versions play no part but for rights that version 1 has no room for.
        for version in [Version::One, Version::Two] {
            let other = version
                .convert(&new)
                .map(|new| changes(&before, &open(&new)));
            let expected = in_version(differences.clone(), version);
            assert!(other.is_err() || other == Ok(expected));
        }
        for column in 0..columns {
            let name = after.name(column);
            let states = (before.exists(name), after.exists(name));
            assert_eq!(states == (false, true), differences.made.contains(&name));
            assert_eq!(states == (true, false), differences.gone.contains(&name));
        }
    }
}

#[test]
fn sentences_are_read_as_the_commands_they_tell() {
    let mut numbers = Numbers::new(2);
    let mut codes = BTreeSet::new();
    for _ in 0..20_000 {
        let record = open(&station(&mut numbers));
        let names = match numbers.below(2) {
            0 => Names::default(),
            _ => names_for_all(&record),
        };
        let c = any_command(&mut numbers, &record.bytes);
        let told = sentence(c, &record, &names).expect("each of these commands has words");
        let kind_fits = match c.code {
            10 | 11 => c.o >= record.logins(),
            _ => true,
        };
        if kind_fits {
            assert_eq!(parse(&told, &record, &names), Ok(c), "{told}");
            codes.insert(c.code);
        }
        assert_eq!(parse(&five(c), &record, &names), Ok(c));
    }
    assert_eq!(codes.len(), 13);
}

#[test]
fn refusals_of_commands_are_told() {
    let mut numbers = Numbers::new(3);
    let mut seen = BTreeSet::new();
    for _ in 0..200_000 {
        let bytes = station(&mut numbers);
        let record = open(&bytes);
        let mut c = any_command(&mut numbers, &record.bytes);
        match numbers.below(20) {
            0 => c.code = numbers.pick(&[0, 14, u64::MAX]),
            1 => c.i = numbers.pick(&[record.logins(), u64::MAX]),
            2 => c.k = numbers.pick(&[record.basics(), 15, u64::MAX]),
            3 => c.o = record.columns(),
            _ => {}
        }
        let Err(refused) = command(&mut bytes.clone(), c) else {
            assert!(!why::allowed(c, &record, &Names::default()).is_empty());
            continue;
        };
        let told = why::refused(c, refused, &record, &Names::default());
        assert_ne!(told, refused.words(), "{c:?}");
        assert!(fits(c, refused.refusal, &record), "{c:?} {told}");
        seen.insert(refused.number());
        if seen.len() == 10 && numbers.below(400) == 0 {
            return;
        }
    }
    panic!("some refusals did not occur: {seen:?}");
}

#[test]
fn transfers_of_own_are_told() {
    let names = Names::default();
    let record = open(&[
        1, 0, 0, 0, 26, 3, 1, // Station A: login 1 owns login 2, who owns log 3.
        0, 2, 0, 1, 0, 0, 0, 0, 0, 0, 0, 2, 0, 1, 0, 0, 0, 0, 0, 0, 0, 2, 0, 1,
    ]);
    let told = |i, s, o| why::allowed(Command::transfer_own(i, s, o), &record, &names);
    assert_eq!(told(2, 1, 3), "login 2 owns log 3");
    assert_eq!(
        told(1, 0, 2),
        "login 1 owns login 2, which is not login 0 nor above it"
    );
}

#[test]
fn deletes_of_a_bit_that_is_not_set_are_told() {
    let names = Names::default();
    let record = open(&[
        1, 0, 0, 0, 26, 3,
        1, // Station A, in which login 1 has r0* over log 3, and login 2 owns it.
        0, 2, 0, 1, 0, 0, 0, 0, 0, 0, 0, 2, 0, 1, 0, 8, 0, 0, 0, 0, 0, 2, 0, 1,
    ]);
    let told = |c: Command| {
        let refused = command(&mut record.bytes.clone(), c).unwrap_err();
        assert_eq!(refused.refusal, Refusal::NotSet);
        why::refused(c, refused, &record, &names)
    };
    assert_eq!(
        told(Command::delete(2, 1, 3, Basic::R0)),
        "r0 over log 3 is not set for login 1, who holds it by r0*"
    );
    assert_eq!(
        told(Command::delete_starred(2, 2, 3, Basic::R0)),
        "r0* over log 3 is not set for login 2, who holds it by own"
    );
    assert_eq!(
        told(Command::delete(2, 1, 3, Basic::R1)),
        "r1 over log 3 is not set for login 1"
    );
}

/// Whether what a refusal's words rest on is so in the record.
fn fits(c: Command, refusal: Refusal, record: &Record) -> bool {
    let o = record.name(c.o.min(record.columns()));
    match refusal {
        Refusal::InitiatorAbsent => !record.exists(Name::Login(c.i)),
        Refusal::NameAbsent => !record.exists(Name::Login(c.s)) || !record.exists(o),
        Refusal::NameExists => record.exists(Name::Login(c.s)) || record.exists(o),
        Refusal::RightLacking if c.code == 13 => !record.bit(c.i, c.s, Right::Own),
        Refusal::RightLacking if matches!(c.code, 3..=9 | 11) => !record.bit(c.i, c.o, Right::Own),
        Refusal::NotSet => {
            let k = Basic::from_number(c.k).expect("k is in bounds");
            let named = [Right::Plain(k), Right::Starred(k)][(c.code - 8) as usize];
            !record.bit(c.s, c.o, named)
        }
        Refusal::WalkMeets => record.way_up(c.s).contains(&c.o),
        Refusal::OtherController => !record.other_controllers(c.o).is_empty(),
        _ => true,
    }
}

#[test]
fn impossible_rights_are_safe() {
    let mut numbers = Numbers::new(4);
    let mut count = 0;
    while count < 2_000 {
        let record = open(&station(&mut numbers));
        let (s, o) = (
            numbers.below(record.logins()),
            numbers.below(record.columns()),
        );
        let right = numbers.pick(&[Right::Own, Right::Control]);
        if why::impossible(s, record.name(o), right, &Names::default()).is_some() {
            assert_eq!(witness(&record.bytes, 0, s, o, right), Ok(None));
            count += 1;
        }
    }
}

#[test]
fn texts_of_more_commands_than_a_list_has() {
    let mut record = open(&station(&mut Numbers::new(5)));
    let (n, columns) = (record.logins(), record.columns());
    let new = new_record(LARGEST.0, LARGEST.1).unwrap();
    let mut large = open(&new);
    let last = large.columns() - 1;
    let mut text = String::from("# 25,000 commands that change nothing in the end\n");
    for _ in 0..12_500 {
        text.push_str(&format!(
            "login 0 creates log {last}\n\n0 destroys {last}\n"
        ));
    }
    let commands = read(text.into_bytes(), &large, &Names::default()).unwrap();
    assert_eq!(commands.numbered.len(), 25_000);
    assert!(matches!(commands.run(&mut large), Ran::Whole));
    assert_eq!(large.bytes, new);

    // A number above 255 stands in no list, and ends the run where it stands.
    let before = record.bytes.clone();
    let text = format!("4 0 0 0 0\n12 0 300 0 0\n12 {n} {columns} 0 0\n");
    let commands = read(text.into_bytes(), &record, &Names::default()).unwrap();
    let ran = commands.run(&mut record);
    let mut expected = before;
    let first = command(&mut expected, Command::new(4, 0, 0, 0, 0));
    match ran {
        Ran::Refused(at, refused) => {
            assert_eq!(at, usize::from(first.is_ok()));
            assert_eq!(first.err().unwrap_or(refused).refusal, refused.refusal);
        }
        _ => panic!("a name beyond the record is refused"),
    }
    assert_eq!(record.bytes, expected);
}
