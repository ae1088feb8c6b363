//! A record's file that is made with its history, whole or not at all. The history is put in its place first: without its record, and with
//! nothing but its start, it is what a making that was cut off leaves, and the next making drops it.

use std::ffi::OsStr;
use std::fs;

use crate::history::file::HistoryFile;
use crate::history::kept::begin;
use crate::input::called;
use crate::no_answer::{Answered, NoAnswer, no_answer};
use crate::replace::{Locked, sync_folder_of};

/// Makes a record's file that is not there yet, for a command of this name.
pub fn make(path: &OsStr, record: &[u8], command: &str) -> Answered<()> {
    let mut locked = Locked::to_make(path, command)?;
    let history = HistoryFile::of(path, locked.target());
    is_free(&history, path)?;
    let fresh = locked.prepare(record)?;
    begin(&history, &locked, record).map_err(|error| {
        let (file, name) = (called(path), &history.name);
        NoAnswer(format!(
            "{name} can't be made: {error}; {file} is not made either"
        ))
    })?;
    locked.put(fresh).inspect_err(|_| {
        let _ = fs::remove_file(&history.path);
        sync_folder_of(&history.path);
    })
}

/// That a history can be begun here: there is none, or one that was begun for a record that was never made.
fn is_free(history: &HistoryFile, path: &OsStr) -> Answered<()> {
    let Some(file) = history.open(false)? else {
        return Ok(());
    };
    let (name, record_file) = (&history.name, called(path));
    match history.replay(&file, u64::MAX, u64::MAX, None)? {
        Ok(replay) if replay.is_made_alone() => Ok(()),
        _ => no_answer(format!(
            "{name} is there already, without {record_file}, and nothing is written over it"
        )),
    }
}
