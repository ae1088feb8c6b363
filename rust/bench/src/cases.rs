//! What is measured: each call on a record of some shape and size, on every side.

use std::hint::black_box;
use std::rc::Rc;

use crate::lists::{accepted_commands, encode};
use crate::measure::Case;
use crate::numbers::Numbers;
use crate::sides::Calls;
use crate::size::Size;
use crate::stations::Shape;
use crate::windows::{mixed_entries, window_of};

/// Commands in a short list and in a long one.
pub const SHORT: usize = 1000;
pub const LONG: usize = 10_000;

/// A call that only reads the record. All sides read the same bytes and have to give the same answer as expected.
fn reading<T: PartialEq + Copy + 'static>(
    record: Vec<u8>,
    expected: T,
    call: impl Fn(Calls, &[u8]) -> T + Copy + 'static,
) -> Case {
    let shared = Rc::new(record);
    Case::new(|calls| {
        let record = shared.clone();
        move || assert!(call(calls, black_box(&record)) == expected)
    })
}

pub fn valid(shape: Shape, size: Size) -> Case {
    let record = shape.record(size);
    reading(record, true, |calls, record| (calls.valid)(record))
}

/// Whether U holds the plain right 0 over the last log: it doesn't.
pub fn held(shape: Shape, size: Size) -> Case {
    let record = shape.record(size);
    let o = (size.n + size.p - 1) as u64;
    reading(record, (0, 0), move |calls, record| {
        (calls.held)(record, 0, o, 2)
    })
}

/// A command that is accepted and, once done, leaves the record as it is, so that every call does the same.
fn command(shape: Shape, size: Size, fields: [u64; 5]) -> Case {
    Case::new(|calls| {
        let mut record = shape.record(size);
        move || assert!((calls.command)(black_box(&mut record), black_box(fields)).0 == 0)
    })
}

/// The owner of the last log grants subject 1 a right over it.
pub fn grant(shape: Shape, size: Size) -> Case {
    let o = size.n + size.p - 1;
    command(shape, size, [4, (o % size.n) as u64, 1, o as u64, 3])
}

/// Own of the last subject from its owner to its owner, over a chain: the walk follows n - 2 links.
pub fn transfer_own(size: Size) -> Case {
    let last = size.n as u64 - 1;
    command(Shape::Chain, size, [3, last - 1, last - 1, last, 0])
}

/// Own of the last log from its owner to its owner.
pub fn transfer_log(shape: Shape, size: Size) -> Case {
    let o = size.n + size.p - 1;
    let owner = (o % size.n) as u64;
    command(shape, size, [3, owner, owner, o as u64, 0])
}

/// A list run. Before every call all sides do the same to their record: nothing, or they copy the first one anew.
fn run(record: Vec<u8>, commands: &[[u64; 5]], before: fn(&mut [u8], &[u8])) -> Case {
    let (list, expected) = (Rc::new(encode(commands)), (0, commands.len() as u64));
    let first = Rc::new(record);
    Case::new(|calls| {
        let (first, list) = (first.clone(), list.clone());
        let mut record = first.to_vec();
        move || {
            before(&mut record, &first);
            assert!((calls.run)(black_box(&mut record), black_box(&list)) == expected);
        }
    })
}

/// So many grants by the owners of the logs in turn, each to another subject, all of rights without the star.
fn grants(size: Size, count: usize) -> Vec<[u64; 5]> {
    (0..count)
        .map(|j| {
            let o = size.n + j % size.p;
            [4, o % size.n, 7 * j % size.n, o, j % size.basics()].map(|field| field as u64)
        })
        .collect()
}

/// A run of `count` grants. The same run on the record after it is accepted too and changes nothing.
pub fn run_of_grants(size: Size, count: usize) -> Case {
    let record = Shape::Flat.record(size);
    run(record, &grants(size, count), |_, _| ())
}

/// A run in which the logs change hands in turn: each goes from its owner to the next subject, and in the next round back.
pub fn run_of_transfers(size: Size, count: usize) -> Case {
    let record = Shape::Flat.record(size);
    let commands: Vec<[u64; 5]> = (0..count)
        .map(|j| {
            let o = size.n + j % size.p;
            let (owner, other) = (o % size.n, (o + 1) % size.n);
            let back = j / size.p % 2 == 1;
            let (i, s) = if back { (other, owner) } else { (owner, other) };
            [3, i, s, o, 0].map(|field| field as u64)
        })
        .collect();
    run(record, &commands, |copy, record| {
        copy.copy_from_slice(record)
    })
}

/// A run of the thirteen codes in turn, all accepted, each time on a new copy of the record.
pub fn run_of_all_codes(size: Size, count: usize) -> Case {
    let record = Shape::Chain.record(size);
    let commands = accepted_commands(&mut Numbers(1), &record, count);
    run(record, &commands, |copy, record| {
        copy.copy_from_slice(record)
    })
}

/// A list searched for the first command after which a right is held, with the value of the answer.
fn search(record: Vec<u8>, commands: &[[u64; 5]], question: [u64; 3], value: u64) -> Case {
    let (record, list) = (Rc::new(record), Rc::new(encode(commands)));
    Case::new(|calls| {
        let (record, list) = (record.clone(), list.clone());
        let mut copy = vec![0; record.len()];
        move || {
            let copy = black_box(&mut copy[..]);
            let answer = (calls.first_held)(black_box(&record), black_box(&list), question, copy);
            assert!(answer == (0, value));
        }
    })
}

/// Subject 1 and the first log, which U owns: the first right with the star, that grants without it never give.
fn starred_right(size: Size) -> [u64; 3] {
    [1, size.n as u64, 3]
}

/// Grants searched for a right that none of them gives.
pub fn never_by_grants(size: Size, count: usize) -> Case {
    let record = Shape::Flat.record(size);
    search(record, &grants(size, count), starred_right(size), 0)
}

/// Grants searched for the right that the last of them gives.
pub fn by_last_of_grants(size: Size, count: usize) -> Case {
    let record = Shape::Flat.record(size);
    let (question, mut commands) = (starred_right(size), grants(size, count - 1));
    commands.push([5, 0, question[0], question[1], 0]);
    search(record, &commands, question, count as u64 + 1)
}

/// The thirteen codes in turn, all accepted, searched for control of a log, which nobody ever has.
pub fn never_by_all_codes(size: Size, count: usize) -> Case {
    let record = Shape::Chain.record(size);
    let commands = accepted_commands(&mut Numbers(1), &record, count);
    search(record, &commands, [1, size.n as u64, 1], 0)
}

/// Whether the subject that is asked about can come to hold the plain right 0 over the log that is asked about.
fn question(shape: Shape, size: Size, trust: u64, leaks: bool) -> Case {
    let (s, o) = (shape.asked_subject() as u64, shape.asked_log(size.n) as u64);
    Case::new(|calls| {
        let record = shape.record(size);
        let mut out = vec![0; 5 + 6 * (size.n + 2)];
        move || {
            let out = black_box(&mut out[..]);
            let (refusal, value) = (calls.safety)(black_box(&record), trust, s, o, 2, out);
            assert!(refusal == 0 && (value != 0) == leaks);
        }
    })
}

/// Everybody is trusted, so that the answer is safe after every owner above the log is looked at.
pub fn all_trusted(shape: Shape, size: Size) -> Case {
    question(shape, size, size.all(), false)
}

/// Everybody but U is trusted, so that the list destroys every owner between U and the log.
pub fn root_untrusted(shape: Shape, size: Size) -> Case {
    question(shape, size, size.all() & !1, true)
}

/// A conversion to a version. A record that is of it is copied.
fn conversion(
    size: Size,
    version: usize,
    call: impl Fn(Calls, &[u8], &mut [u8]) -> (u64, u64) + Copy + 'static,
) -> Case {
    let record = Rc::new(Shape::Flat.record(size));
    let bytes = size.in_version(version).record_bytes();
    Case::new(|calls| {
        let (record, mut out) = (record.clone(), vec![0; bytes]);
        move || {
            let out = black_box(&mut out[..]);
            assert!(call(calls, black_box(&record), out) == (0, bytes as u64));
        }
    })
}

pub fn to_version_1(size: Size) -> Case {
    conversion(size, 1, |calls, record, out| {
        (calls.to_version_1)(record, out)
    })
}

pub fn to_version_2(size: Size) -> Case {
    conversion(size, 2, |calls, record, out| {
        (calls.to_version_2)(record, out)
    })
}

/// Makes a window empty again.
pub fn window_empty() -> Case {
    let window = window_of(&mixed_entries(&mut Numbers(1), LONG));
    Case::new(|calls| {
        let mut window = window.clone();
        move || (calls.window_empty)(black_box(&mut window))
    })
}

/// Many entries put into a full window one by one.
pub fn window_put() -> Case {
    let entries = Rc::new(mixed_entries(&mut Numbers(1), LONG));
    Case::new(|calls| {
        let (entries, mut window) = (entries.clone(), window_of(&entries));
        move || {
            for &[initiator, outcome] in entries.iter() {
                let window = black_box(&mut window[..]);
                assert!((calls.window_put)(window, initiator, outcome) == (0, 0));
            }
        }
    })
}

/// Many counts of a full window, those of all numbers in turn.
pub fn window_count() -> Case {
    let window = Rc::new(window_of(&mixed_entries(&mut Numbers(1), LONG)));
    let refused = window[..256].iter().filter(|&&byte| byte != 0).count();
    Case::new(|calls| {
        let window = window.clone();
        move || {
            let count = |number| (calls.window_count)(black_box(&window), number).1;
            assert!((0..64).map(count).sum::<u64>() == refused as u64);
        }
    })
}
