//! Cells that a login can have over another login and over a log, and each right there: whether it is held, and the safety
//! question with everybody trusted, where nothing can change, so that the cell alone decides; and the conversions. At version 1
//! these are all 65,536 cells, at version 2 those with no bit, one or two of them, all of them, and many more. Over a log the
//! cells with control are not valid, and are asked too.

use reference::buffer_minimum;

use crate::check::{self, Difference};
use crate::convert;
use crate::count::{Counts, Versions};
use crate::matrix::{CONTROL, OWN, VERSIONS, clear, empty_record, rights, set};
use crate::random::Random;

/// Logins 0 to 2 and a log: the columns of the last login and of the log, and the login whose cells are tried.
const LOGINS: u64 = 3;
const OTHER: u64 = 2;
const LOG: u64 = 3;
const LOGIN: u64 = 1;

/// How many random cells of version 2 are tried.
const RANDOM_CELLS: u64 = 2_000;

/// The cells that are tried in a version: all where a cell has 16 bits. Where it has more, those with up to two bits and with
/// all of them, and random ones, in which each bit is set in a half, in a quarter or in three quarters of them.
fn cells(version: u8, random: &mut Random) -> Vec<u32> {
    let bits = rights(version);
    if bits <= 16 {
        return (0..1 << bits).collect();
    }
    let pairs = (0..bits).flat_map(|one| (0..=one).map(move |other| 1 << one | 1 << other));
    let mut cells: Vec<u32> = pairs.chain([0, u32::MAX]).collect();
    cells.extend((0..RANDOM_CELLS).map(|_| {
        let [half, other] = [random.next() as u32, random.next() as u32];
        random.pick(&[half, half & other, half | other])
    }));
    cells
}

/// U owns the other logins and the log.
fn three_logins_and_a_log(version: u8) -> Vec<u8> {
    let mut record = empty_record(version, LOGINS, 1);
    for login in 0..LOGINS {
        set(&mut record, login, login, CONTROL);
    }
    for column in 1..=LOG {
        set(&mut record, 0, column, OWN);
    }
    record
}

/// The record with this cell of the login over the column. U owns the log in any case, and the other login where this
/// one does not.
fn with_cell(version: u8, cell: u32, column: u64) -> Vec<u8> {
    let mut record = three_logins_and_a_log(version);
    let owned = cell & 1 << OWN != 0;
    if column == OTHER && owned {
        clear(&mut record, 0, column, OWN);
    }
    for code in (0..rights(version)).filter(|code| cell & 1 << code != 0) {
        set(&mut record, LOGIN, column, code);
    }
    record
}

/// Compares both implementations on the cells of both versions, with every right of each.
pub fn all(random: &mut Random, versions: &mut Versions) -> Result<(), Difference> {
    for version in VERSIONS {
        let counts = versions.of(version);
        for cell in cells(version, random) {
            for column in [OTHER, LOG] {
                ask(&with_cell(version, cell, column), column, random, counts)?;
            }
        }
    }
    Ok(())
}

/// Every right over a column of a record, and its conversions.
fn ask(
    record: &[u8],
    column: u64,
    random: &mut Random,
    counts: &mut Counts,
) -> Result<(), Difference> {
    for right in 0..rights(record[0]) {
        check::held(record, [LOGIN, column, right], false, counts)?;
        let question = [(1 << LOGINS) - 1, LOGIN, column, right];
        check::safety(record, question, buffer_minimum(LOGINS), false, counts)?;
    }
    convert::there_and_back(record, random, counts)?;
    convert::ask_both(record, false, random, counts)
}
