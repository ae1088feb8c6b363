//! `adopt FILE`: takes a record that was changed from outside into its history, as a change that no recorded command made.

use std::io;

use crate::answer::Answer;
use crate::changes::changes;
use crate::commands::audit::{in_and_missing, resized};
use crate::history::entries::Rest;
use crate::history::file::{Adding, bytes_from, push_entry, started};
use crate::history::kept::{Kept, NotKept, damage, dropped, not_added};
use crate::history::layout::{Entry, HEAD, SUM, What, head};
use crate::history::replay::Replay;
use crate::history::time::now;
use crate::input::{called, names_of, opened};
use crate::library::MOST_RECORD_BYTES;
use crate::names::Names;
use crate::no_answer::{Answered, no_answer};
use crate::record::Record;
use crate::replace::Locked;
use crate::words::Given;

pub fn adopt(given: &Given) -> Answered<Answer> {
    let path = &given.words[0];
    if path == "-" {
        return no_answer("the standard input has no history");
    }
    let mut locked = Locked::open(path)?;
    let record = opened(path, locked.read(MOST_RECORD_BYTES)?)?;
    let names = names_of(path, given.names.as_ref(), &[&record])?;
    let file = called(path);
    let text = match Kept::open(path, &locked, &record.bytes)? {
        Ok(mut kept) if kept.is_new() => {
            let begun = kept.begin(&locked, &record.bytes)?;
            format!("{begun}{file} is its start.\n")
        }
        Ok(mut kept) => {
            let first = kept.recover(&mut locked)?;
            let name = kept.name();
            format!("{first}{file} is what {name} makes of it: there is nothing to adopt.\n")
        }
        Err(not_kept) => adopted(not_kept, &locked, &record, &names)?,
    };
    Ok(Answer::new(text, true))
}

/// Takes the record in, and tells what came in with it.
fn adopted(not_kept: NotKept, locked: &Locked, record: &Record, names: &Names) -> Answered<String> {
    let NotKept {
        record_file,
        history,
        file,
        ..
    } = &not_kept;
    let replay = match (&not_kept.replay, not_kept.damage()) {
        (Ok(replay), None) => replay,
        (_, damage) => {
            let damage = damage.unwrap_or_default();
            return mended(&not_kept, &damage, locked, record, names);
        }
    };
    let (end, sum) = (replay.end, replay.sum);
    let mut text = String::new();
    let mut adding = Adding {
        file: file.try_clone().map_err(|error| history.not_read(&error))?,
        end,
        sum,
    };
    if replay.rest == Rest::CutOff {
        let rest = bytes_from(file, end, MOST_REST);
        let rest = rest.map_err(|error| history.not_read(&error))?;
        if !begins_adoption(&rest, end, record) {
            let damage = damage(replay.changes + 1, end, "it is cut off");
            return mended(&not_kept, &damage, locked, record, names);
        }
        let cut = adding.take_back();
        cut.map_err(|error| history.not_written(&error))?;
        text.push_str(&dropped(history));
    }
    let added = adding.add(&entry(record).body());
    added.map_err(|why| not_added(&why, record_file, history))?;
    text.push_str(&came_in(record_file, replay, record, names)?);
    Ok(text)
}

/// More bytes than an adoption has.
const MOST_REST: u64 = MOST_RECORD_BYTES as u64 + 64;

/// Whether bytes at the end of a history are what an adoption of this record leaves that was cut off: its beginning, whatever its time. All
/// else may be a change that was damaged later.
fn begins_adoption(rest: &[u8], place: u64, record: &Record) -> bool {
    let body = entry(record).body();
    let time = HEAD + 1..HEAD + 9;
    let whole = [&head(body.len() as u32, place), body.as_slice()].concat();
    let bytes = rest.iter().zip(&whole).enumerate();
    let mut same = bytes.map(|(at, (there, begun))| there == begun || time.contains(&at));
    rest.len() < whole.len() + SUM && same.all(|same| same)
}

fn entry(record: &Record) -> Entry<'_> {
    Entry {
        time: now(),
        what: What::Adopted(&record.bytes),
    }
}

/// That the record is adopted, and what it has and lacks beside the one that the history made.
fn came_in(file: &str, replay: &Replay, record: &Record, names: &Names) -> Answered<String> {
    let made = opened(file.as_ref(), replay.record.clone())?;
    let change = replay.changes + 1;
    Ok(format!(
        "{file} is adopted as change {change}.\n{}{}",
        resized(&made, record),
        in_and_missing(&changes(&made, record), names)
    ))
}

/// Keeps a damaged history whole under another name, and puts one in its place that has what stands before the damage and the adoption.
/// Where nothing stands before the damage a new history is begun.
fn mended(
    not_kept: &NotKept,
    damage: &str,
    locked: &Locked,
    record: &Record,
    names: &Names,
) -> Answered<String> {
    let NotKept {
        record_file,
        history,
        file,
        replay,
    } = not_kept;
    let name = &history.name;
    let (bytes, told) = match replay {
        Err(_) => (
            started(What::Adopted(&record.bytes)).0,
            format!("{name} is begun anew, and {record_file} is adopted as its start.\n"),
        ),
        Ok(replay) => {
            let bytes = bytes_from(file, 0, replay.end);
            let mut bytes = bytes.map_err(|error| history.not_read(&error))?;
            push_entry(&mut bytes, &entry(record).body(), replay.sum);
            (bytes, came_in(record_file, replay, record, names)?)
        }
    };
    let failed = |error: io::Error| history.not_written(&error);
    let kept = history.keep_damaged().map_err(failed)?;
    let old = locked.old().map_err(failed)?;
    history.put(&bytes, old.as_ref()).map_err(failed)?;
    Ok(format!(
        "{name} was damaged {damage}. It is kept as {kept}.\n{told}"
    ))
}
