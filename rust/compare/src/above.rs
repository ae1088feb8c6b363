//! Whole, valid records with more names than a record may have. Those of version 1 were right before the limits were lowered.

use reference::{Cell, State, Station, Version};

use crate::generate::valid_record;
use crate::matrix::{
    FORMER_MOST_PLAIN, FORMER_MOST_SUBJECTS, MOST_PLAIN, MOST_SUBJECTS, cell, sizes,
};
use crate::random::Random;

/// The refusal that every call gives for them.
pub const REFUSED: u64 = 3;

/// A number up to a limit, often the limit.
fn within(least: u64, limit: u64, random: &mut Random) -> u64 {
    let any = least + random.below(limit - least + 1);
    random.pick(&[limit, any])
}

/// A number above a limit and up to the former one, often the first or the last of them.
fn above(limit: u64, former: u64, random: &mut Random) -> u64 {
    let any = within(limit + 1, former, random);
    random.pick(&[limit + 1, any])
}

/// n and p up to the former limits; n, p or both are above the limits.
fn size(random: &mut Random) -> (u64, u64) {
    let more_subjects = above(MOST_SUBJECTS, FORMER_MOST_SUBJECTS, random);
    let more_plain = above(MOST_PLAIN, FORMER_MOST_PLAIN, random);
    match random.below(3) {
        0 => (more_subjects, within(0, MOST_PLAIN, random)),
        1 => (within(1, MOST_SUBJECTS, random), more_plain),
        _ => (more_subjects, more_plain),
    }
}

/// The station that the bytes of a record show, whatever its n and p.
fn station_shown(record: &[u8]) -> Station {
    let (n, p) = sizes(record);
    let version = Version::from_byte(record[0]).expect("the version is 1 or 2");
    let mut station = Station {
        version,
        n,
        p,
        state: State::default(),
    };
    let places = (0..n).flat_map(|row| (0..n + p).map(move |column| (row, column)));
    let cells = places.map(|(row, column)| {
        let bits = cell(record, row, column);
        (station.name(column), row, Cell(bits))
    });
    station.state = State::from_cells(cells);
    station
}

/// A record of a version above the limits, and its station, of which questions can be drawn.
pub fn record_above(version: u8, random: &mut Random) -> (Vec<u8>, Station) {
    let (n, p) = size(random);
    let record = valid_record(version, n, p, random);
    let station = station_shown(&record);
    (record, station)
}
