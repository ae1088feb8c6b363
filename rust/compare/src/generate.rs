//! Valid records of many shapes, built cell by cell.

use crate::matrix::{CONTROL, OWN, empty_record, rights, set};
use crate::random::Random;

/// A valid record of a version with n subject names and p plain names.
pub fn valid_record(version: u8, n: u64, p: u64, random: &mut Random) -> Vec<u8> {
    let mut record = empty_record(version, n, p);
    let subjects = subjects_in_order(n, random);
    set_owners(&mut record, &subjects, random);
    set_controllers(&mut record, &subjects, random);
    let plains = plain_objects(n, p, random);
    for plain in &plains {
        set_plain_owners(&mut record, *plain, &subjects, random);
    }
    let columns: Vec<u64> = subjects.iter().chain(&plains).copied().collect();
    set_basic_rights(&mut record, &subjects, &columns, random);
    record
}

/// The subjects that are to exist, U first, the others in rising, falling or random order. All, half or few of them
/// exist.
fn subjects_in_order(n: u64, random: &mut Random) -> Vec<u64> {
    let existing_in_eight = random.pick(&[8, 8, 4, 1]);
    let mut others: Vec<u64> = (1..n)
        .filter(|_| random.below(8) < existing_in_eight)
        .collect();
    match random.below(3) {
        0 => (),
        1 => others.reverse(),
        _ => shuffle(&mut others, random),
    }
    let mut subjects = vec![0];
    subjects.extend(others);
    subjects
}

fn shuffle(numbers: &mut [u64], random: &mut Random) {
    for at in (1..numbers.len()).rev() {
        numbers.swap(at, random.below(at as u64 + 1) as usize);
    }
}

/// Each subject controls itself and, but for U, is owned by an earlier one: the one before (one deep chain), U, any,
/// mostly the one before, or the one two before (two chains).
fn set_owners(record: &mut [u8], subjects: &[u64], random: &mut Random) {
    let shape = random.below(5);
    for (at, s) in subjects.iter().enumerate() {
        set(record, *s, *s, CONTROL);
        if at == 0 {
            continue;
        }
        let owner_at = match shape {
            0 => at - 1,
            1 => 0,
            2 => random.below(at as u64) as usize,
            3 if random.one_in(6) => random.below(at as u64) as usize,
            3 => at - 1,
            _ => at.saturating_sub(2),
        };
        set(record, subjects[owner_at], *s, OWN);
    }
}

/// None, some or all of the subjects other than U get a controller besides themselves.
fn set_controllers(record: &mut [u8], subjects: &[u64], random: &mut Random) {
    let controlled_in_four = random.pick(&[0, 1, 4]);
    for s in &subjects[1..] {
        let controller = random.pick(subjects);
        if random.below(4) < controlled_in_four {
            set(record, controller, *s, CONTROL);
        }
    }
}

/// The columns of the plain objects that are to exist: all, half, few or none.
fn plain_objects(n: u64, p: u64, random: &mut Random) -> Vec<u64> {
    let existing_in_eight = random.pick(&[8, 4, 1, 0]);
    (n..n + p)
        .filter(|_| random.below(8) < existing_in_eight)
        .collect()
}

/// One owner, mostly the last subject of the order, which is deepest in a chain; or a few; or, seldom, all.
fn set_plain_owners(record: &mut [u8], plain: u64, subjects: &[u64], random: &mut Random) {
    let last = subjects[subjects.len() - 1];
    match random.below(8) {
        0..=2 => set(record, last, plain, OWN),
        3 | 4 => set(record, random.pick(subjects), plain, OWN),
        5 | 6 => {
            for _ in 0..3 {
                set(record, random.pick(subjects), plain, OWN);
            }
        }
        _ => {
            let owners_in_eight = random.pick(&[2, 8]);
            set(record, last, plain, OWN);
            for s in subjects {
                if random.below(8) < owners_in_eight {
                    set(record, *s, plain, OWN);
                }
            }
        }
    }
}

/// Some basic rights, plain and starred, over existing names: none, few, many, or seldom as many as there are cells. They are
/// of all that the version has, or of those that version 1 has too, so that many records of version 2 can become version 1.
fn set_basic_rights(record: &mut [u8], rows: &[u64], columns: &[u64], random: &mut Random) {
    let cells = (rows.len() * columns.len()) as u64;
    let count = match random.below(32) {
        0..=7 => 0,
        8..=19 => 1 + random.below(8),
        20..=30 => random.below(cells.min(200) + 1),
        _ => cells,
    };
    let codes = random.pick(&[rights(1), rights(record[0])]);
    for _ in 0..count {
        let (row, column) = (random.pick(rows), random.pick(columns));
        set(record, row, column, 2 + random.below(codes - 2));
    }
}
