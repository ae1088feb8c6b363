//! What is read: records, names and commands, from files or from the standard input.

use std::ffi::{OsStr, OsString};
use std::fs::{self, File};
use std::io::{self, ErrorKind, Read};

use crate::faults::reasons;
use crate::library::MOST_RECORD_BYTES;
use crate::names::Names;
use crate::names_file;
use crate::no_answer::{Answered, NoAnswer, no_answer, shown};
use crate::record::Record;

/// The most bytes of a file of names, and of commands as text.
const MOST_NAMES: usize = 1 << 20;
pub const MOST_TEXT: usize = 1 << 24;

/// A record with its names.
pub struct Station {
    pub file: String,
    pub record: Record,
    pub names: Names,
}

/// A file's name for a sentence.
pub fn called(path: &OsStr) -> String {
    if path == "-" {
        String::from("the standard input")
    } else {
        shown(path)
    }
}

/// What went wrong with a file, as one sentence.
pub fn trouble(path: &OsStr, doing: &str, error: &io::Error) -> NoAnswer {
    let file = called(path);
    NoAnswer(match error.kind() {
        ErrorKind::NotFound => format!("there is no file {file}"),
        ErrorKind::IsADirectory => format!("{file} is a directory and no file"),
        ErrorKind::PermissionDenied => format!("{file} can't be {doing}: permission is denied"),
        _ => format!("{file} can't be {doing}: {error}"),
    })
}

/// A file's first bytes, `most` and one more at most; `-` is the standard input.
pub fn read(path: &OsStr, most: usize) -> Answered<Vec<u8>> {
    let read = if path == "-" {
        read_from(io::stdin().lock(), most)
    } else {
        File::open(path).and_then(|file| read_from(file, most))
    };
    read.map_err(|error| trouble(path, "read", &error))
}

/// The first bytes of an open file.
pub fn read_from(from: impl Read, most: usize) -> io::Result<Vec<u8>> {
    let mut bytes = Vec::new();
    from.take(most as u64 + 1).read_to_end(&mut bytes)?;
    Ok(bytes)
}

/// A record's bytes. Of a longer file one byte more than the longest record has is read, which the library refuses as it would
/// refuse the whole.
pub fn record_bytes(path: &OsStr) -> Answered<Vec<u8>> {
    read(path, MOST_RECORD_BYTES)
}

/// The record of a file, with its names.
pub fn station(path: &OsStr, names: Option<&OsString>) -> Answered<Station> {
    let bytes = record_bytes(path)?;
    let record = opened(path, bytes)?;
    let names = names_of(path, names, &[&record])?;
    Ok(Station {
        file: called(path),
        record,
        names,
    })
}

/// Bytes of a file as a record, or the sentence that says why they are none.
pub fn opened(path: &OsStr, bytes: Vec<u8>) -> Answered<Record> {
    let refusal = match Record::open(&bytes) {
        Ok(record) => return Ok(record),
        Err(refusal) => refusal,
    };
    let reasons = reasons(&bytes, Some(refusal), &Names::default());
    let reason = reasons.first().map_or("", |fault| &fault.sentence);
    let (file, number) = (called(path), refusal.number());
    no_answer(format!(
        "{file} is no valid record (refusal {number}): {reason}"
    ))
}

/// The names of a record or a window: those of the file given, or of the file beside it, or none. They name what the records have; a
/// window has none to say what there is.
pub fn names_of(path: &OsStr, given: Option<&OsString>, records: &[&Record]) -> Answered<Names> {
    match given.cloned().or_else(|| beside(path)) {
        None => Ok(Names::default()),
        Some(file) => read_names(&file, records),
    }
}

/// The file of names beside a record or a window, or beside the file that a link leads to.
pub fn beside(path: &OsStr) -> Option<OsString> {
    if path == "-" {
        return None;
    }
    let target = fs::canonicalize(path).ok()?;
    if !target.is_file() {
        return None;
    }
    [path, target.as_os_str()].into_iter().find_map(|named| {
        let mut file = named.to_os_string();
        file.push(".names");
        fs::symlink_metadata(&file).is_ok().then_some(file)
    })
}

fn read_names(file: &OsStr, records: &[&Record]) -> Answered<Names> {
    let bytes = read(file, MOST_NAMES)?;
    if bytes.len() > MOST_NAMES {
        return no_answer(format!("{} has more than {MOST_NAMES} bytes", called(file)));
    }
    let Ok(text) = String::from_utf8(bytes) else {
        return no_answer(format!("{} is not written in UTF-8", called(file)));
    };
    names_file::parse(&text, records).map_err(|why| NoAnswer(format!("{}, {why}", called(file))))
}
