//! `convert FILE VERSION OUT`: the record of a file, in another version, as a new file.

use crate::answer::{Answer, first_lines};
use crate::history::make::make;
use crate::input::{Station, called, station};
use crate::library::Refusal;
use crate::no_answer::{Answered, no_answer};
use crate::version::Version;
use crate::words::Given;

pub fn convert(given: &Given) -> Answered<Answer> {
    let version = Version::parse(given.text(1)?)?;
    let station = station(&given.words[0], given.names.as_ref())?;
    let bytes = match version.convert(&station.record.bytes) {
        Ok(bytes) => bytes,
        Err(Refusal::HighRight) => return Ok(Answer::new(in_the_way(&station, version), false)),
        Err(refusal) => {
            let (words, number) = (refusal.words(), refusal.number());
            return no_answer(format!("{}: {words} (refusal {number})", station.file));
        }
    };
    let out = &given.words[2];
    if out == "-" {
        return Ok(Answer::bytes(bytes));
    }
    make(out, &bytes, "convert")?;
    let (out, file, number) = (called(out), &station.file, version.number());
    let text = if station.record.version() == number {
        format!("{out} is a copy of {file}, which is of version {number} already.\n")
    } else {
        format!("{out} is the record of {file} in version {number}.\n")
    };
    Ok(Answer::new(text, true))
}

/// The rights for which a version has no room (18).
fn in_the_way(station: &Station, version: Version) -> String {
    let Station {
        file,
        record,
        names,
    } = station;
    let version = version.number();
    let cells = record.beyond(version).into_iter();
    let told = cells.map(|(login, over, rights)| {
        let (who, rights) = (names.login(login), names.rights(&rights));
        format!("{who} has {rights} over {}", names.name(over))
    });
    format!(
        "{file} has basic rights for which version {version} has no room (refusal {}):\n{}Nothing is written.\n",
        Refusal::HighRight.number(),
        first_lines(&told.collect::<Vec<String>>())
    )
}
