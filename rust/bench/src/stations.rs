//! Records to measure and to compare on.

use crate::numbers::Numbers;
use crate::size::Size;

const OWN: u32 = 1;
const CONTROL: u32 = 2;

/// The ways in which the subjects of a measured record own each other. All names exist.
#[derive(Clone, Copy)]
pub enum Shape {
    /// U owns every other subject.
    Flat,
    /// Each subject owns the next.
    Chain,
    /// U owns the last subject, and each subject the one before it, so that owners have the higher numbers.
    ChainDown,
    /// A chain, and every subject owns the log that is asked about but the one of whom it is asked, who would hold the right by own.
    OwnersInChain,
}

impl Shape {
    pub const ALL: [Shape; 4] = [
        Shape::Flat,
        Shape::Chain,
        Shape::ChainDown,
        Shape::OwnersInChain,
    ];

    pub fn name(self) -> &'static str {
        match self {
            Shape::Flat => "flat",
            Shape::Chain => "chain",
            Shape::ChainDown => "chain, owners higher",
            Shape::OwnersInChain => "chain, others own log",
        }
    }

    /// The owner of subject s, which isn't U.
    fn owner(self, s: usize, n: usize) -> usize {
        match self {
            Shape::Flat => 0,
            Shape::Chain | Shape::OwnersInChain => s - 1,
            Shape::ChainDown => (s + 1) % n,
        }
    }

    /// The log that is asked about: one whose owner has the most owners above it.
    pub fn asked_log(self, n: usize) -> usize {
        match self {
            Shape::ChainDown => n + 1,
            _ => n + n - 1,
        }
    }

    /// The subject that is asked about: one that does not own that log.
    pub fn asked_subject(self) -> usize {
        match self {
            Shape::ChainDown => 2,
            _ => 1,
        }
    }

    /// The record of a size with p at least n. Each log is owned by one of the subjects in turn, which has a basic right with the star over it;
    /// the subject after it has a plain one. Both rights are of every version.
    pub fn record(self, size: Size) -> Vec<u8> {
        let n = size.n;
        let mut record = blank(size);
        for s in 0..n {
            add(&mut record, s, s, CONTROL);
            if s != 0 {
                add(&mut record, self.owner(s, n), s, OWN);
            }
        }
        for o in n..size.columns() {
            add(&mut record, o % n, o, OWN | 1 << 15);
            add(&mut record, (o + 1) % n, o, 1 << 6);
        }
        if let Shape::OwnersInChain = self {
            for s in (0..n).filter(|s| *s != self.asked_subject()) {
                add(&mut record, s, self.asked_log(n), OWN);
            }
        }
        record
    }
}

/// A record with every cell zero.
fn blank(size: Size) -> Vec<u8> {
    let length = size.record_bytes() - 5;
    let mut record = vec![size.version as u8];
    record.extend_from_slice(&(length as u32).to_be_bytes());
    record.extend_from_slice(&[size.n as u8, size.p as u8]);
    record.resize(5 + length, 0);
    record
}

/// Sets bits of a cell.
fn add(record: &mut [u8], row: usize, column: usize, bits: u32) {
    let size = Size::of(record);
    let cell = &mut record[size.place(row, column)..][..size.cell_bytes()];
    for (to, byte) in cell.iter_mut().rev().zip(bits.to_le_bytes()) {
        *to |= byte;
    }
}

/// The place of the last byte of a cell, which has own and control.
fn low_place(record: &[u8], row: usize, column: usize) -> usize {
    let size = Size::of(record);
    size.place(row, column) + size.cell_bytes() - 1
}

/// Whether a row has the bit of a right over a column.
fn has(record: &[u8], row: usize, column: usize, right: usize) -> bool {
    record[low_place(record, row, column) - right / 8] >> (right % 8) & 1 == 1
}

/// The lowest row that owns a column.
pub fn lowest_owner(record: &[u8], column: usize) -> Option<usize> {
    let n = record[5] as usize;
    (0..n).find(|&row| has(record, row, column, 0))
}

/// A row, a column and the number of a basic right that the row has over it, plain (form 0) or starred (1): the next one from any place on.
pub fn set_right(numbers: &mut Numbers, record: &[u8], form: usize) -> Option<[usize; 3]> {
    let size = Size::of(record);
    let (columns, basics) = (size.columns(), size.basics());
    let places = size.n * columns * basics;
    let from = numbers.below(places);
    let mut rights = (from..from + places).map(|place| {
        let cell = place % places / basics;
        [cell / columns, cell % columns, place % basics]
    });
    rights.find(|&[row, column, k]| has(record, row, column, 2 + 2 * k + form))
}

/// A valid record with names absent here and there, owners in any order, other controllers and basic rights. Those of one in two are rights
/// that every version has.
pub fn any_record(numbers: &mut Numbers, size: Size) -> Vec<u8> {
    let mut record = blank(size);
    let subjects = existing_subjects(numbers, &mut record, size.n);
    let mut columns = subjects.clone();
    for o in size.n..size.columns() {
        if !numbers.once_in(4) {
            let owners = 1 + numbers.below(3);
            for _ in 0..owners {
                add(&mut record, subjects[numbers.below(subjects.len())], o, OWN);
            }
            columns.push(o);
        }
    }
    let version = if numbers.once_in(2) { 1 } else { size.version };
    let rights = 2 * size.in_version(version).basics();
    for _ in 0..numbers.below(4 * columns.len()) {
        let row = subjects[numbers.below(subjects.len())];
        let column = columns[numbers.below(columns.len())];
        add(&mut record, row, column, 4 << numbers.below(rights));
    }
    record
}

/// Subjects that join a tree in any order, each owned by one that joined before. U is the first.
fn existing_subjects(numbers: &mut Numbers, record: &mut [u8], n: usize) -> Vec<usize> {
    let mut order: Vec<usize> = (1..n).collect();
    for j in (1..order.len()).rev() {
        order.swap(j, numbers.below(j + 1));
    }
    let deep = numbers.once_in(2);
    let mut subjects = vec![0];
    add(record, 0, 0, CONTROL);
    for s in order {
        if numbers.once_in(5) {
            continue;
        }
        let last = subjects.len() - 1;
        let owner = if deep { last } else { numbers.below(last + 1) };
        add(record, subjects[owner], s, OWN);
        add(record, s, s, CONTROL);
        if numbers.once_in(3) {
            add(record, subjects[numbers.below(last + 1)], s, CONTROL);
        }
        subjects.push(s);
    }
    subjects
}

/// Moves own of a subject to another, which may be below it, so that owners may form a cycle.
fn move_own(numbers: &mut Numbers, record: &mut [u8]) {
    let n = record[5] as usize;
    let s = numbers.below(n);
    if let Some(owner) = lowest_owner(record, s) {
        let at = low_place(record, owner, s);
        record[at] &= !OWN as u8;
        add(record, numbers.below(n), s, OWN);
    }
}

/// Changes a valid record: a bit of a cell, an owner, a byte of the head, the version or the length.
pub fn damage(numbers: &mut Numbers, record: &mut Vec<u8>) {
    let length = record.len();
    match numbers.below(9) {
        0 => record[numbers.below(7)] = numbers.bits() as u8,
        1 => record[0] = numbers.below(4) as u8,
        2 => record.truncate(numbers.below(length)),
        3 => record.push(0),
        4..7 => move_own(numbers, record),
        _ => record[7 + numbers.below(length - 7)] ^= 1 << numbers.below(8),
    }
}
