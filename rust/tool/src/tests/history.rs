//! The layout and the sums of histories, and what is made of whole and of damaged ones.

use crate::history::entries::Rest;
use crate::history::kept::Standing;
use crate::history::layout::{Entry, RunBytes, What};
use crate::history::sums::{Crc64, crc_32};
use crate::history::time;
use crate::library::{Command, Refusal, new_record, run};
use crate::tests::histories::{History, Made, replayed};
use crate::tests::random::{Numbers, any_command, station};

/// A sum bit by bit.
fn slow(bytes: &[u8], polynomial: u64, width: u32) -> u64 {
    let ones = u64::MAX >> (64 - width);
    let mut sum = ones;
    for byte in bytes {
        sum ^= u64::from(*byte);
        for _ in 0..8 {
            let low = sum & 1;
            sum = (sum >> 1) ^ (polynomial * low);
        }
    }
    sum ^ ones
}

#[test]
fn sums() {
    let nine = b"123456789";
    assert_eq!(crc_32(nine), 0xcbf4_3926);
    assert_eq!(Crc64::new().with(nine).sum(), 0x995d_c9bb_df19_39fa);
    let mut numbers = Numbers::new(20);
    for length in 0..200 {
        let bytes: Vec<u8> = (0..length).map(|_| numbers.below(256) as u8).collect();
        let (first, second) = bytes.split_at(numbers.below(length + 1) as usize);
        let sum = slow(&bytes, 0xc96c_5795_d787_0f42, 64);
        assert_eq!(Crc64::new().with(&bytes).sum(), sum);
        assert_eq!(Crc64::new().with(first).with(second).sum(), sum);
        assert_eq!(u64::from(crc_32(&bytes)), slow(&bytes, 0xedb8_8320, 32));
    }
}

/// Each day from 1970 to 2500 is the one after the day before it.
#[test]
fn times() {
    assert_eq!(time::told(0), "1970-01-01 00:00:00 UTC");
    assert_eq!(time::told(951_868_799), "2000-02-29 23:59:59 UTC");
    assert_eq!(time::told(1_794_941_236), "2026-11-17 18:47:16 UTC");
    assert!(time::told(u64::MAX).ends_with(" UTC"));
    let mut day = 0;
    for year in 1970..2500 {
        let leap = year % 4 == 0 && (year % 100 != 0 || year % 400 == 0);
        let february = if leap { 29 } else { 28 };
        let months = [31, february, 31, 30, 31, 30, 31, 31, 30, 31, 30, 31];
        for (month, days) in (1..).zip(months) {
            for date in 1..=days {
                let wanted = format!("{year}-{month:02}-{date:02} 00:00:00 UTC");
                assert_eq!(time::told(86_400 * day), wanted);
                day += 1;
            }
        }
    }
}

/// A run's commands come back as they were given, whatever their numbers; no part of its bytes is taken for a run of other commands.
#[test]
fn bodies() {
    let mut numbers = Numbers::new(21);
    for _ in 0..2_000 {
        let record = station(&mut numbers);
        let given: Vec<Command> = (0..=numbers.below(9))
            .map(|_| {
                let c = any_command(&mut numbers, &record);
                let wide = [c.i, 255, 256, u64::MAX][numbers.below(4) as usize];
                Command { i: wide, ..c }
            })
            .collect();
        let fit = given.iter().take_while(|c| c.i <= 255).count();
        let accepted = numbers.below(fit as u64 + 1) as usize;
        let refusal = (accepted < given.len()).then_some(Refusal::Bounds);
        let bytes = RunBytes::new(given.iter().copied());
        let what = What::Run(bytes.run(accepted, refusal));
        let body = Entry { time: 7, what }.body();
        let read = Entry::read(&body).expect("it is whole");
        let What::Run(run) = read.what else {
            panic!("it is a run")
        };
        assert_eq!(
            (read.time, run.accepted, run.refusal),
            (7, accepted, refusal)
        );
        assert_eq!(run.commands().collect::<Vec<_>>(), given);
        assert_eq!(run.count(), given.len());
        for length in 0..body.len() {
            let whole = Entry::read(&body[..length]);
            // Commands after the refused one may be missing, as if they had not been given.
            assert!(whole.is_none() || length > 22 + 6 * accepted);
        }
    }
    for wrong in [0, 4, 255] {
        assert!(Entry::read(&[wrong, 0, 0, 0, 0, 0, 0, 0, 7]).is_none());
    }
}

/// A whole history makes the record of each change, and keeps the one before the last.
#[test]
fn whole_histories() {
    let mut numbers = Numbers::new(22);
    for _ in 0..1_500 {
        let history = History::random(&mut numbers, 12);
        let count = history.made.len();
        for until in (1..=count as u64 + 1).chain([u64::MAX]) {
            let replay = replayed(&history.bytes, until).expect("it has a start");
            let changes = count.min(until as usize - 1);
            assert_eq!(replay.changes, changes as u64);
            assert!(replay.record == history.records[changes]);
            assert_eq!(replay.end, history.ends[changes] as u64);
            assert_eq!(replay.rest, Rest::Nothing);
            let last_run = matches!(history.made[..changes].last(), Some(Made::Run(_)));
            assert_eq!(replay.before.is_some(), last_run);
            let before = history.records[changes.saturating_sub(1)].clone();
            assert!(replay.before.is_none_or(|kept| kept == before));
        }
        let replay = replayed(&history.bytes, u64::MAX).expect("it has a start");
        let accepted = history.made.iter().map(|made| match made {
            Made::Run(commands) => commands.len() as u64,
            Made::Adopted => 0,
        });
        assert_eq!(replay.accepted, accepted.sum());
        assert_eq!(replay.standing(history.last()), Standing::Agrees);
    }
}

/// More commands in a change than a list has, and changes that end at the end of a list, or shortly before or after it.
#[test]
fn long_changes() {
    let record = new_record(2, 1).expect("the sizes are in range");
    let pair = [Command::create_object(0, 2), Command::destroy_object(0, 2)];
    let long =
        |count: usize| -> Vec<Command> { pair.iter().copied().cycle().take(count).collect() };
    for counts in [
        &[25_001][..],
        &[10_000, 1],
        &[9_999, 2, 1],
        &[1, 9_999, 10_000, 20_000],
        &[1, 10_000],
        &[30_000, 30_000],
        &[2; 7_000],
    ] {
        let mut history = History::new(record.clone());
        for count in counts {
            // The first command of a change is accepted: an odd change before has made the log.
            let mut commands = long(*count);
            if history.last() != record {
                commands.insert(0, pair[1]);
            }
            history.run(&commands);
        }
        let replay = replayed(&history.bytes, u64::MAX).expect("it has a start");
        assert!(replay.record == history.last());
        assert!(replay.before.as_ref() == history.records.iter().nth_back(1));
        assert_eq!(replay.changes, counts.len() as u64);
        let second = replayed(&history.bytes, 2).expect("it has a start");
        assert!(second.record == history.records[1]);
    }
}

/// A change that the library does not repeat is told, and what stands before it is made.
#[test]
fn changes_that_are_not_repeated() {
    let record = new_record(2, 1).expect("the sizes are in range");
    let create = Command::create_object(0, 2);
    let mut history = History::new(record.clone());
    history.run(&[create]);
    let mut other = History::new(record);
    // In the other history the log was not made before.
    other.run(&[Command::create_subject(0, 1)]);
    other.run(&[create]);
    let whole = replayed(&other.bytes, u64::MAX).expect("it has a start");
    assert_eq!((whole.changes, whole.rest), (2, Rest::Nothing));
    let mut forged = history.last().to_vec();
    assert!(
        run(
            &mut forged,
            &crate::library::encode(&[create]).expect("it fits")
        )
        .is_err()
    );
    history.push_forged(&[create, create]);
    history.run(&[Command::create_subject(0, 1)]);
    let replay = replayed(&history.bytes, u64::MAX).expect("it has a start");
    assert!(matches!(replay.rest, Rest::Damaged(_)));
    assert_eq!((replay.changes, replay.end), (1, history.ends[1] as u64));
    assert!(replay.record == history.records[1]);
}

/// A history cut at a byte: whole where an entry ends there, else cut off, and the changes before are made.
#[test]
fn cut_at_every_byte() {
    let mut numbers = Numbers::new(23);
    for _ in 0..12 {
        let history = History::random(&mut numbers, 8);
        for length in 0..=history.bytes.len() {
            let replay = replayed(&history.bytes[..length], u64::MAX);
            let whole = history.ends.iter().filter(|end| **end <= length).count();
            let Ok(replay) = replay else {
                assert_eq!(whole, 0);
                continue;
            };
            assert_eq!(replay.changes as usize + 1, whole);
            assert!(replay.record == history.records[whole - 1]);
            let ends = history.ends.contains(&length);
            assert_eq!(replay.rest, if ends { Rest::Nothing } else { Rest::CutOff });
        }
    }
}

/// A history with any bit of any byte changed: it is told, as cut off only in the last entry, and the changes before are made.
#[test]
fn changed_at_every_byte() {
    let mut numbers = Numbers::new(24);
    for _ in 0..8 {
        let history = History::random(&mut numbers, 6);
        let mut bytes = history.bytes.clone();
        for at in 0..bytes.len() {
            for change in (0..8).map(|bit| 1 << bit).chain([0xff, bytes[at]]) {
                if change == 0 {
                    continue;
                }
                bytes[at] ^= change;
                let before = history.ends.iter().filter(|end| **end <= at).count();
                match replayed(&bytes, u64::MAX) {
                    Err(_) => assert_eq!(before, 0),
                    Ok(replay) => {
                        assert_eq!(replay.changes as usize + 1, before);
                        assert!(replay.record == history.records[before - 1]);
                        assert_ne!(replay.rest, Rest::Nothing);
                        let last = before == history.made.len();
                        assert!(last || matches!(replay.rest, Rest::Damaged(_)));
                    }
                }
                bytes[at] ^= change;
            }
        }
    }
}

/// Any bytes after whole entries, and bytes moved from one place to another, are never taken for an entry.
#[test]
fn other_bytes() {
    let mut numbers = Numbers::new(25);
    for _ in 0..3_000 {
        let history = History::random(&mut numbers, 5);
        let mut bytes = history.bytes.clone();
        let kind = numbers.below(4);
        match kind {
            0 => bytes.extend((0..=numbers.below(60)).map(|_| numbers.below(256) as u8)),
            1 => bytes.resize(bytes.len() + 1 + numbers.below(60) as usize, 0),
            2 => bytes.extend_from_within(numbers.pick(&history.ends)..),
            _ => {
                let (from, to) = (numbers.pick(&history.ends), numbers.pick(&history.ends));
                bytes.drain(from.min(to)..from.max(to));
            }
        }
        let replay = replayed(&bytes, u64::MAX).expect("the start is whole");
        let changes = replay.changes as usize;
        assert!(replay.record == history.records[changes]);
        assert!(bytes[..replay.end as usize] == history.bytes[..history.ends[changes]]);
        let whole = bytes.len() as u64 == replay.end;
        assert_eq!(replay.rest == Rest::Nothing, whole);
        // The head of an entry that is moved is wrong.
        assert!(whole || kind < 2 || matches!(replay.rest, Rest::Damaged(_)));
    }
}

/// The end of one history after the beginning of another, of the same length, is told: a sum depends on all before it.
#[test]
fn spliced() {
    let record = new_record(3, 1).expect("the sizes are in range");
    let [one, other] = [1, 2].map(|login| {
        let mut history = History::new(record.clone());
        history.run(&[Command::create_subject(0, login)]);
        history.run(&[Command::create_object(0, 3)]);
        history.run(&[Command::destroy_object(0, 3)]);
        history
    });
    assert_eq!(one.ends, other.ends);
    let end = one.ends[1];
    let bytes = [&one.bytes[..end], &other.bytes[end..]].concat();
    let replay = replayed(&bytes, u64::MAX).expect("it has a start");
    assert_eq!((replay.changes, replay.end), (1, end as u64));
    assert!(matches!(replay.rest, Rest::Damaged(_)));
}
