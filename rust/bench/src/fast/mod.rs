//! The eleven calls in Rust written for speed, with no proof: what the library is timed against. A refusal is its number, 0 where
//! the call is answered.
//!
//! This source is two modules, `plain::fast` and `sse2::fast`. Each takes its lanes, on which the scan works, from the module
//! it is in.

mod absent;
mod cell;
mod change;
mod convert;
mod first;
mod list;
pub mod parts;
mod plains;
mod refusal;
mod rooted;
mod safety;
mod scan;
mod small;
mod station;
mod subjects;
pub mod tables;
mod window;
mod witness;

pub use convert::{to_version_1, to_version_2};
pub use first::first_held;
pub use safety::safety;
pub use window::{window_count, window_empty, window_put};

use super::lanes;
use list::commands;
use scan::{FIRST, scan};
use station::Station;
use tables::{Owners, Tables};

/// Whether a record has cells of four bytes: it is of version 2. Others are read as if of version 1, which refuses them.
#[inline(always)]
fn wide(record: &[u8]) -> bool {
    record.first() == Some(&2)
}

/// Whether a record is valid.
pub fn valid(record: &[u8]) -> bool {
    if wide(record) {
        scan::<4, _>(record, &mut ()).is_ok()
    } else {
        scan::<2, _>(record, &mut ()).is_ok()
    }
}

/// The cell of row s and column o of a record with the right length.
#[inline(always)]
fn cell_of<const W: usize>(record: &[u8], s: usize, o: usize) -> u32 {
    let columns = record[5] as usize + record[6] as usize;
    let mut bytes = [0; 4];
    bytes[4 - W..].copy_from_slice(&record[FIRST + W * (s * columns + o)..][..W]);
    u32::from_be_bytes(bytes)
}

/// The bits by which a right is held: its own, and for a basic right the starred one, whose code is odd, and own's, which is bit 0.
#[inline(always)]
fn held_mask(right: u64) -> u32 {
    let basic = u32::from(right >= 2);
    1 << right | 1 << (right as u32 | basic) | basic
}

/// Whether own makes a right held: every right but control.
#[inline(always)]
fn held_by_own(right: usize) -> bool {
    right != 1
}

/// Whether the names and the right of a question are those of a record of n subject names and p plain names.
#[inline(always)]
fn question_fits<const W: usize>(record: &[u8], s: u64, o: u64, right: u64) -> bool {
    let n = u64::from(record[5]);
    s < n && o < n + u64::from(record[6]) && right < 8 * W as u64
}

/// Whether a right is held: the refusal, and 1 or 0.
pub fn held(record: &[u8], s: u64, o: u64, right: u64) -> (u64, u64) {
    if wide(record) {
        held_in::<4>(record, s, o, right)
    } else {
        held_in::<2>(record, s, o, right)
    }
}

#[inline(always)]
fn held_in<const W: usize>(record: &[u8], s: u64, o: u64, right: u64) -> (u64, u64) {
    if let Err(refusal) = scan::<W, _>(record, &mut ()) {
        return (refusal, 0);
    }
    if !question_fits::<W>(record, s, o, right) {
        return (7, 0);
    }
    let bits = cell_of::<W>(record, s as usize, o as usize) & held_mask(right);
    (0, u64::from(bits != 0))
}

/// One command on a record: the refusal, and the links of the owner walk.
pub fn command(record: &mut [u8], fields: [u64; 5]) -> (u64, u64) {
    if wide(record) {
        command_in::<4>(record, fields)
    } else {
        command_in::<2>(record, fields)
    }
}

/// A field that is more than a byte has is out of bounds, as 255 is.
#[inline(always)]
fn command_in<const W: usize>(record: &mut [u8], fields: [u64; 5]) -> (u64, u64) {
    let mut owners = Owners::new();
    if let Err(refusal) = scan::<W, _>(record, &mut owners) {
        return (refusal, 0);
    }
    let fields = fields.map(|field| field.min(255) as u8);
    let mut tables = Tables::new(owners);
    let mut station = Station::<W>::new(record, &mut tables);
    if let 6 | 10 = fields[0] {
        station.look_up(fields[3]);
    } else if let Some(links) = station.accepted(&fields) {
        return (0, links);
    } else {
        station.look_up(fields[3]);
    }
    match station.accepted(&fields) {
        Some(links) => (0, links),
        None => station.refusal(&fields),
    }
}

/// The commands of a list in turn: the refusal, and how many were accepted.
pub fn run(record: &mut [u8], list: &[u8]) -> (u64, u64) {
    if wide(record) {
        run_in::<4>(record, list)
    } else {
        run_in::<2>(record, list)
    }
}

#[inline(always)]
fn run_in<const W: usize>(record: &mut [u8], list: &[u8]) -> (u64, u64) {
    let mut tables = Tables::new(Owners::new());
    if let Err(refusal) = scan::<W, _>(record, &mut tables) {
        return (refusal, 0);
    }
    let Some(commands) = commands(list) else {
        return (16, 0);
    };
    let mut station = Station::<W>::new(record, &mut tables);
    let mut left = commands;
    while let [[_, fields @ ..], after @ ..] = left {
        if station.accepted(fields).is_none() {
            break;
        }
        left = after;
    }
    let refusal = match left {
        [[_, fields @ ..], ..] => station.refusal(fields).0,
        [] => 0,
    };
    (refusal, (commands.len() - left.len()) as u64)
}
