//! The record of a file as it stood before a change.

use std::ffi::{OsStr, OsString};
use std::fs;
use std::os::unix::ffi::OsStrExt;

use crate::history::entries::Rest;
use crate::history::kept::damage;
use crate::history::replay::NoStart;
use crate::history::seen::Seen;
use crate::input::{called, opened, record_bytes};
use crate::no_answer::{Answered, no_answer};
use crate::record::Record;
use crate::spoken::number;

/// The record of a file as it stood before the change of this number, which may be the next one.
pub fn before(path: &OsStr, change: u64) -> Answered<Record> {
    if change == 0 {
        return no_answer("changes are counted from 1");
    }
    let seen = Seen::read(path)?;
    let name = &seen.history.name;
    let replay = match seen.replay(change, None)? {
        Ok(replay) => replay,
        Err(NoStart(why)) => return no_answer(format!("{name} is damaged {}", damage(0, 0, why))),
    };
    let next = replay.changes + 1;
    if change == next {
        return opened(path, replay.record);
    }
    let why = match replay.rest {
        Rest::Damaged(why) => format!(", and is damaged {}", damage(next, replay.end, why)),
        _ => String::new(),
    };
    no_answer(format!(
        "{name} has the record before each of the changes 1 to {next}, and not before {change}{why}"
    ))
}

/// The file and the change of a word such as `ward.rights@3`; none where there is a file of that very name, or the word is no such word.
fn split(word: &OsStr) -> Result<Option<(OsString, u64)>, String> {
    let bytes = word.as_bytes();
    let Some(at) = bytes.iter().rposition(|byte| *byte == b'@') else {
        return Ok(None);
    };
    if at == 0 || fs::symlink_metadata(word).is_ok() {
        return Ok(None);
    }
    let Ok(change) = std::str::from_utf8(&bytes[at + 1..]) else {
        return Ok(None);
    };
    let file = OsStr::from_bytes(&bytes[..at]).to_os_string();
    Ok(number(change)?.map(|change| (file, change)))
}

/// A record, of a file or of its past, and the file.
pub struct Side {
    pub path: OsString,
    pub record: Record,
}

impl Side {
    pub fn read(word: &OsStr) -> Answered<Side> {
        let (path, record) = match split(word)? {
            Some((path, change)) => {
                let record = before(&path, change)?;
                (path, record)
            }
            None => (word.to_os_string(), opened(word, record_bytes(word)?)?),
        };
        Ok(Side { path, record })
    }
}

/// The number of a change, as a word gives it.
pub fn change_number(word: &OsStr) -> Answered<u64> {
    let text = word.to_str().unwrap_or_default();
    match number(text)? {
        Some(number) => Ok(number),
        None => no_answer(format!("'{}' is no change's number", called(word))),
    }
}
