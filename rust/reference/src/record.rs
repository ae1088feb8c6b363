//! The rights record (Manual 2): bytes to state and back, at both versions.

use std::ops::Range;

use crate::Refusal;
use crate::rights::Cell;
use crate::state::{Name, State};
use crate::valid::matrix_valid;
use crate::version::Version;

/// The most subject names that a record may have; it has at least one, U.
const MOST_SUBJECTS: u64 = 40;

/// The most plain names that a record may have; it may have none.
const MOST_PLAIN: u64 = 120;

/// What is read from a record (Manual 2.2): n, p and the state, and the version, in which it is written again.
#[derive(Clone, Debug, PartialEq, Eq)]
pub struct Station {
    pub version: Version,
    pub n: u64,
    pub p: u64,
    pub state: State,
}

impl Station {
    /// The name that a column stands for (Manual 1.1).
    pub fn name(&self, column: u64) -> Name {
        name_of_column(self.n, column)
    }
}

/// The name that a column number means, where the record has n subject names.
pub fn name_of_column(n: u64, column: u64) -> Name {
    if column < n {
        Name::Subject(column)
    } else {
        Name::Plain(column)
    }
}

/// The length of a version 1 record of n subject names and p plain names.
pub fn record_length(n: u64, p: u64) -> usize {
    Version::One.record_length(n, p)
}

/// The bytes of the cell of a row and a column: after byte 6 come n rows of n + p cells.
fn place(version: Version, n: u64, p: u64, row: u64, column: u64) -> Range<usize> {
    let cells_before = (row * (n + p) + column) as usize;
    let start = 7 + version.cell_bytes() * cells_before;
    start..start + version.cell_bytes()
}

/// Reads a record, with the tests 1 to 5 in their order.
pub fn read(record: &[u8]) -> Result<Station, Refusal> {
    // 1: fewer than 7 bytes.
    if record.len() < 7 {
        return Err(1);
    }
    // 2: a version that is not known.
    let Some(version) = Version::from_byte(record[0]) else {
        return Err(2);
    };
    // 3: n is at least 1, and neither n nor p is over its limit.
    let (n, p) = (u64::from(record[5]), u64::from(record[6]));
    if !(1..=MOST_SUBJECTS).contains(&n) || p > MOST_PLAIN {
        return Err(3);
    }
    // 4: L, and the length, by the version.
    let l = u32::from_be_bytes([record[1], record[2], record[3], record[4]]);
    let l_wrong = u64::from(l) != version.count_after_byte_4(n, p);
    if l_wrong || record.len() != version.record_length(n, p) {
        return Err(4);
    }
    // 5: the five conditions.
    let state = read_matrix(record, version, n, p);
    if !matrix_valid(&state, n) {
        return Err(5);
    }
    Ok(Station {
        version,
        n,
        p,
        state,
    })
}

/// The cells, column by column, which is the order of the state's map.
fn read_matrix(record: &[u8], version: Version, n: u64, p: u64) -> State {
    let places = (0..n + p).flat_map(|column| (0..n).map(move |row| (column, row)));
    State::from_cells(places.map(|(column, row)| {
        let bytes = &record[place(version, n, p, row, column)];
        let cell = bytes
            .iter()
            .fold(0, |high, low| high << 8 | u32::from(*low));
        (name_of_column(n, column), row, Cell(cell))
    }))
}

/// Writes a station as a record of its version, which has to have room for every bit that is set.
pub fn write(station: &Station) -> Vec<u8> {
    let (version, n, p) = (station.version, station.n, station.p);
    let mut record = vec![0; version.record_length(n, p)];
    record[0] = version.byte();
    record[1..5].copy_from_slice(&(version.count_after_byte_4(n, p) as u32).to_be_bytes());
    record[5] = n as u8;
    record[6] = p as u8;
    for (name, row, cell) in station.state.cells() {
        let (Name::Subject(column) | Name::Plain(column)) = name;
        assert!(version.has_room(cell), "no room for the bits of {cell:?}");
        // The low bytes, as many as a cell has; those before them are zero.
        let bytes = cell.0.to_be_bytes();
        let low = &bytes[bytes.len() - version.cell_bytes()..];
        record[place(version, n, p, row, column)].copy_from_slice(low);
    }
    record
}
