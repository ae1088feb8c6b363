//! `run FILE COMMANDS`: runs commands on a record, enters them in its history, and replaces its file by what they make of it. With a window
//! the commands that were tried are entered there.

use std::ffi::OsStr;
use std::fs;

use crate::answer::Answer;
use crate::changes::{by_login, changes};
use crate::command_text::{Commands, Ran, read};
use crate::history::file::HistoryFile;
use crate::history::kept::Kept;
use crate::input::{self, MOST_TEXT, Station, called, names_of, opened, record_bytes};
use crate::library::MOST_RECORD_BYTES;
use crate::names::counted;
use crate::no_answer::{Answered, NoAnswer, no_answer};
use crate::record::Record;
use crate::replace::{Locked, folder_of, is_one_file};
use crate::sentence::in_full;
use crate::why;
use crate::window_file::{self, Entered};
use crate::words::Given;

pub fn run(given: &Given) -> Answered<Answer> {
    let (path, from) = (&given.words[0], &given.words[1]);
    if path == "-" && from == "-" {
        return no_answer("FILE and COMMANDS can't both be the standard input");
    }
    let bytes = commands_bytes(from)?;
    let locked = if given.dry {
        None
    } else {
        Some(Locked::open(path)?)
    };
    let window = window(given)?;
    let mut station = station(given, locked.as_ref())?;
    let open = locked.map(|locked| Open::new(path, locked, &mut station));
    let open = open.transpose()?;
    let commands = read(bytes, &station.record, &station.names)
        .map_err(|why| NoAnswer(format!("{}, {why}; nothing is run", called(from))))?;
    let mut after = station.record.clone();
    let ran = commands.run(&mut after);
    if matches!(ran, Ran::NoList) {
        let list = called(from);
        return no_answer(format!(
            "{list} is neither text nor a list of commands of the right form (refusal 16); nothing is run"
        ));
    }
    let text = text(&station, &after, &commands, &ran);
    let entered = window.map(|window| enter(window, &station, &commands.tried(&ran)));
    let entered = entered.transpose()?;
    let put = match open {
        None => Put::dry(&station),
        Some(open) => open.put(&station, &after, &commands, &ran)?,
    };
    let last = put.with_window(entered)?;
    Ok(Answer::new(
        put.first + &text + &last,
        matches!(ran, Ran::Whole),
    ))
}

/// The record's file, locked, and its history.
struct Open {
    locked: Locked,
    kept: Kept,
}

impl Open {
    /// Opens the history of the station's record. Where its last change is to be finished, the station's record is that after it.
    fn new(path: &OsStr, locked: Locked, station: &mut Station) -> Answered<Open> {
        let kept = Kept::open(path, &locked, &station.record.bytes)?;
        let kept = kept.map_err(|not_kept| not_kept.told())?;
        if let Some(finished) = kept.finished() {
            station.record = opened(path, finished.to_vec())?;
        }
        Ok(Open { locked, kept })
    }

    /// Enters the run in the history where a command was tried, and replaces the record's file where something changed. The new record is
    /// written beside its place before the history, so that what hinders it is met while both are as they were.
    fn put(
        mut self,
        station: &Station,
        after: &Record,
        commands: &Commands,
        ran: &Ran,
    ) -> Answered<Put> {
        let first = self.kept.recover(&mut self.locked)?;
        let file = &station.file;
        let changed = *after != station.record;
        let fresh = changed.then(|| self.locked.prepare(&after.bytes));
        let fresh = fresh.transpose()?;
        let (accepted, refusal) = commands.outcome(ran);
        let given = commands.numbered.iter().map(|(_, c)| *c);
        let begun = if commands.numbered.is_empty() {
            String::new()
        } else {
            let before = &station.record.bytes;
            self.kept
                .add(&self.locked, before, given, accepted, refusal)?
        };
        let last = match fresh {
            None => format!("{file} is left as it is"),
            Some(fresh) => {
                let put = self.locked.put(fresh);
                put.map_err(|why| self.kept.take_back(why))?;
                format!("{file} is replaced")
            }
        };
        Ok(Put { first, begun, last })
    }
}

/// How the files of a record and its history are left: what was done of an earlier run, whether the history is begun, and last, without
/// its full stop, how the record's file is left.
struct Put {
    first: String,
    begun: String,
    last: String,
}

impl Put {
    fn dry(station: &Station) -> Put {
        let file = &station.file;
        Put {
            first: String::new(),
            begun: String::new(),
            last: format!("{file} is left as it is, since this is a dry run"),
        }
    }

    /// Puts the window in its place, where there is one, and tells how all the files are left.
    fn with_window(&self, entered: Option<Entered>) -> Answered<String> {
        let Put { begun, last, .. } = self;
        let window = match entered.map(Entered::put) {
            None => String::new(),
            Some(Ok(told)) => told,
            Some(Err(NoAnswer(why))) => return no_answer(format!("{last}, but {why}")),
        };
        Ok(format!("{begun}{last}.\n{window}"))
    }
}

/// The window that is given, if one is. It is opened, and locked unless the run is dry, before anything is run.
fn window(given: &Given) -> Answered<Option<window_file::Kept>> {
    let Some(path) = &given.window else {
        return Ok(None);
    };
    for (word, other) in ["FILE", "COMMANDS"].into_iter().zip(&given.words) {
        if other != "-" && is_one_file(path, other) {
            return no_answer(format!(
                "{word} and WINDOW can't be one file; nothing is run"
            ));
        }
    }
    if is_history(path, &given.words[0]) {
        return no_answer("WINDOW can't be the history of FILE; nothing is run");
    }
    let kept = window_file::Kept::open(path, given.dry);
    kept.map(Some)
        .map_err(|NoAnswer(why)| NoAnswer(format!("{why}; nothing is run")))
}

/// Whether a window would stand where the history of a record does.
fn is_history(window: &OsStr, record: &OsStr) -> bool {
    let (Ok(target), Ok((folder, name))) = (fs::canonicalize(record), folder_of(window)) else {
        return false;
    };
    let history = HistoryFile::of(record, &target).path;
    folder.join(name) == history || is_one_file(window, history)
}

/// The record before the run, with its names.
fn station(given: &Given, locked: Option<&Locked>) -> Answered<Station> {
    let path = &given.words[0];
    let before = match locked {
        Some(file) => file.read(MOST_RECORD_BYTES)?,
        None => record_bytes(path)?,
    };
    let record = opened(path, before)?;
    let names = names_of(path, given.names.as_ref(), &[&record])?;
    Ok(Station {
        file: called(path),
        record,
        names,
    })
}

/// The bytes of the commands.
fn commands_bytes(from: &OsStr) -> Answered<Vec<u8>> {
    let bytes = input::read(from, MOST_TEXT)?;
    if bytes.len() > MOST_TEXT {
        return no_answer(format!("{} has more than {MOST_TEXT} bytes", called(from)));
    }
    Ok(bytes)
}

/// Enters the commands that were tried in a window, which is written before the record is replaced and not in its place yet, so that what
/// hinders that is met while both are as they were.
fn enter(window: window_file::Kept, station: &Station, tried: &[(u64, u64)]) -> Answered<Entered> {
    window.enter(tried).map_err(|NoAnswer(why)| {
        let file = &station.file;
        NoAnswer(format!("{why}; {file} is left as it is"))
    })
}

/// What was accepted, what was refused and why, and what that changes.
fn text(station: &Station, after: &Record, commands: &Commands, ran: &Ran) -> String {
    let names = &station.names;
    let all = commands.numbered.len() as u64;
    let mut text = match ran {
        Ran::Refused(accepted, refused) => {
            let (at, c) = commands.numbered[*accepted];
            let why = why::refused(c, *refused, after, names);
            format!(
                "{accepted} of {all} commands accepted; {} {at} is refused (refusal {}), and the run ends there:\n  \
                 {}\n  refused: {why}\n",
                commands.place,
                refused.number(),
                in_full(c, after, names)
            )
        }
        _ => format!("{} accepted.\n", counted(all, "command")),
    };
    let changes = changes(&station.record, after);
    if changes.is_empty() {
        text.push_str("Nothing changes.\n");
    } else {
        text.push_str(&by_login(&changes, names));
    }
    text
}
