//! The eight calls on a record, of any bytes and any numbers. Tests go by their numbers, the lowest first, but for
//! 18, which comes before 15, and 19, which comes directly after 12; and where one holds the call is turned down
//! and changes nothing. So `first_held` has 1 to 5, then 7, then 15, then 16. The commands of a list have their
//! tests after the 16 of the whole list. One that is refused ends the list: `run` answers its refusal and keeps the
//! changes before it, and `first_held` is not turned down by it.

use crate::Refusal;
use crate::command::{self, Refused, allowed, change};
use crate::list::read_list;
use crate::record::{Station, read, write};
use crate::rights::Right;
use crate::safety::{buffer_minimum, leaks, question};
use crate::state::Name;
use crate::version::Version;

/// An answer as the C interface gives it: refusal 0 where the call is answered.
#[derive(Clone, Copy, Debug, PartialEq, Eq)]
pub struct Answer {
    pub refusal: Refusal,
    pub value: u64,
}

/// The answer of a safety question. Which list a leak writes is left free, so none is given here; `leaks_by`
/// tests the one that was written.
#[derive(Clone, Copy, Debug, PartialEq, Eq)]
pub enum Safety {
    Refused(Refusal),
    Safe,
    Leaks,
}

/// Whether a record passes the tests 1 to 5 (Manual 8.6). This call never refuses.
pub fn valid(record: &[u8]) -> bool {
    read(record).is_ok()
}

/// The test 7 of a held question (Manual 7.2). The bound of the right's code is the version's. Gives the name of
/// the column and the right.
fn asked_right(station: &Station, s: u64, o: u64, right: u64) -> Result<(Name, Right), Refusal> {
    let in_bounds = s < station.n && o < station.n + station.p;
    match station.version.right(right) {
        Some(right) if in_bounds => Ok((station.name(o), right)),
        _ => Err(7),
    }
}

/// Whether a right is held (Manual 8.6): value 1 for yes and 0 for no, which is the answer for absent names.
pub fn held(record: &[u8], s: u64, o: u64, right: u64) -> Answer {
    let checked = read(record).and_then(|station| {
        let (o, right) = asked_right(&station, s, o, right)?;
        Ok(station.state.held(s, o, right))
    });
    match checked {
        Ok(yes) => Answer {
            refusal: 0,
            value: u64::from(yes),
        },
        Err(refusal) => Answer { refusal, value: 0 },
    }
}

/// One command on a station, with the tests 6 to 12, then 19, then 13 and 14. The links reported are the value.
fn step(station: &mut Station, fields: [u64; 5]) -> Answer {
    let Station { version, n, p, .. } = *station;
    let command = match command::decode_in(version, fields, n, p) {
        Ok(command) => command,
        Err(refusal) => return Answer { refusal, value: 0 },
    };
    match allowed(&station.state, &command) {
        Ok(links) => {
            change(&mut station.state, &command);
            Answer {
                refusal: 0,
                value: links,
            }
        }
        Err(Refused { refusal, links }) => Answer {
            refusal,
            value: links,
        },
    }
}

/// One command on a record. The value is the links that the walk of code 3 over a subject followed, where the
/// command is accepted or refused by 13, and else 0 (Manual 5.5).
pub fn command(record: &mut [u8], fields: [u64; 5]) -> Answer {
    let mut station = match read(record) {
        Ok(station) => station,
        Err(refusal) => return Answer { refusal, value: 0 },
    };
    let answer = step(&mut station, fields);
    if answer.refusal == 0 {
        record.copy_from_slice(&write(&station));
    }
    answer
}

/// A list run (Manual 6.2): the commands in turn, up to the first that is refused. The value is how many were
/// accepted, and their changes stay; where the record or the list is refused, none was.
pub fn run(record: &mut [u8], list: &[u8]) -> Answer {
    let read_both = read(record).and_then(|station| Ok((station, read_list(list)?)));
    let (mut station, commands) = match read_both {
        Ok(both) => both,
        Err(refusal) => return Answer { refusal, value: 0 },
    };
    let mut accepted = 0;
    let mut refusal = 0;
    for fields in commands {
        refusal = step(&mut station, fields).refusal;
        if refusal != 0 {
            break;
        }
        accepted += 1;
    }
    record.copy_from_slice(&write(&station));
    Answer {
        refusal,
        value: accepted,
    }
}

/// After how many commands of a list the right is held for the first time, with the tests 1 to 5, 7, 15 and 16.
/// The value is m + 1 for the least m such that the first m commands are accepted in turn and the right is held
/// after them, and 0 where there is no such m. The commands are tried on a copy that the caller lends; only its
/// length is asked for here, since what it contains afterwards is left free.
pub fn first_held(
    record: &[u8],
    list: &[u8],
    s: u64,
    o: u64,
    right: u64,
    copy_length: usize,
) -> Answer {
    let checked = read(record).and_then(|station| {
        let (o, right) = asked_right(&station, s, o, right)?;
        // 15: the copy is shorter than the record.
        if copy_length < record.len() {
            return Err(15);
        }
        let commands = read_list(list)?;
        let is_held = |station: &Station| station.state.held(s, o, right);
        Ok(least_count(station, &commands, is_held))
    });
    match checked {
        Ok(least) => Answer {
            refusal: 0,
            value: least.map_or(0, |m| m + 1),
        },
        Err(refusal) => Answer { refusal, value: 0 },
    }
}

/// The least m such that the first m commands are accepted in turn and the right is held after them; none where
/// no m is such.
fn least_count(
    mut station: Station,
    commands: &[[u64; 5]],
    is_held: impl Fn(&Station) -> bool,
) -> Option<u64> {
    // Here the first m commands have been accepted, for m from 0 on, and the station is the one after them.
    let mut m = 0;
    loop {
        if is_held(&station) {
            return Some(m);
        }
        // Where there is no next command, or it is refused, no greater m has its first m commands accepted.
        let next = commands.get(m as usize)?;
        if step(&mut station, *next).refusal != 0 {
            return None;
        }
        m += 1;
    }
}

/// The safety question with a buffer of the given length, with the tests 1 to 5, 7 and 15.
pub fn safety(
    record: &[u8],
    trust: u64,
    s: u64,
    o: u64,
    right: u64,
    buffer_length: usize,
) -> Safety {
    let asked = read(record).and_then(|station| {
        let q = question(&station, trust, s, o, right)?;
        Ok((station, q))
    });
    match asked {
        Err(refusal) => Safety::Refused(refusal),
        Ok((station, _)) if buffer_length < buffer_minimum(station.n) => Safety::Refused(15),
        Ok((station, q)) if leaks(&station, &q) => Safety::Leaks,
        Ok(_) => Safety::Safe,
    }
}

/// Writes the record as one of version 1 at the start of the output. The value is its length.
pub fn to_version_1(record: &[u8], out: &mut [u8]) -> Answer {
    convert(record, Version::One, out)
}

/// Writes the record as one of version 2 at the start of the output. The value is its length.
pub fn to_version_2(record: &[u8], out: &mut [u8]) -> Answer {
    convert(record, Version::Two, out)
}

/// Writes what is read from the record in the wanted version, with the tests 1 to 5, then 18, then 15. A record
/// that is of that version already is copied by this, since at one version no two records are read alike.
fn convert(record: &[u8], wanted: Version, out: &mut [u8]) -> Answer {
    let station = match read(record) {
        Ok(station) => station,
        Err(refusal) => return Answer { refusal, value: 0 },
    };
    // 18: a cell of the wanted version has no room for some bit that is set. Own and control have a bit in
    // every version, so this is a bit of a basic right; and a version has room for its own records.
    if station
        .state
        .cells()
        .any(|(_, _, cell)| !wanted.has_room(cell))
    {
        return Answer {
            refusal: 18,
            value: 0,
        };
    }
    let converted = write(&Station {
        version: wanted,
        ..station
    });
    // 15: the output is shorter than the new record. Where it is longer, the bytes after the record are left as
    // they are.
    let Some(start) = out.get_mut(..converted.len()) else {
        return Answer {
            refusal: 15,
            value: 0,
        };
    };
    start.copy_from_slice(&converted);
    Answer {
        refusal: 0,
        value: converted.len() as u64,
    }
}
