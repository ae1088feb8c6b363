//! The file of a history, as it is found and written. It stands beside the file of its record, and its name is the record's with
//! `.history`.

use std::ffi::{OsStr, OsString};
use std::fs::{self, File, Metadata, OpenOptions};
use std::io::{self, ErrorKind, Read, Seek, SeekFrom, Write};
use std::path::{Path, PathBuf};

use crate::history::layout::{BEGINNING, Entry, HEAD, What, first_sum, head, sum};
use crate::history::origin::Asked;
use crate::history::replay::{NoStart, Replay, replay};
use crate::history::time::now;
use crate::input::trouble;
use crate::no_answer::{Answered, NoAnswer, no_answer, shown};
use crate::replace::{Fresh, is_missing, is_one_file, sync_folder_of};
use crate::stop::{HISTORY, stop_for_test};

/// Where the history of a record stands, and how it is called.
pub struct HistoryFile {
    pub path: PathBuf,
    pub name: String,
}

impl HistoryFile {
    /// The history of the record that a path, or the link that it is, leads to.
    pub fn of(given: &OsStr, target: &Path) -> HistoryFile {
        let is_link = fs::symlink_metadata(given).is_ok_and(|found| found.is_symlink());
        let called = if is_link { target.as_os_str() } else { given };
        HistoryFile {
            path: PathBuf::from(with_ending(target.as_os_str(), ".history")),
            name: shown(with_ending(called, ".history")),
        }
    }

    /// Opens it to be read, or to be added to as well; none where there is no such file.
    pub fn open(&self, to_add: bool) -> Answered<Option<File>> {
        let to_nothing = |_| {
            let name = &self.name;
            NoAnswer(format!("{name} is a link to a file that is not there"))
        };
        if is_missing(self.path.as_os_str()).map_err(to_nothing)? {
            return Ok(None);
        }
        let failed = |error: io::Error| trouble(OsStr::new(&self.name), "opened", &error);
        if !fs::metadata(&self.path).map_err(failed)?.is_file() {
            return no_answer(format!("{} is no file", self.name));
        }
        let open = OpenOptions::new()
            .read(true)
            .append(to_add)
            .open(&self.path);
        open.map(Some).map_err(failed)
    }

    /// Replays so many of its bytes, up to a change that is not run any more.
    pub fn replay(
        &self,
        file: &File,
        length: u64,
        until: u64,
        asked: Option<Asked>,
    ) -> Answered<Result<Replay, NoStart>> {
        replay(|| from_start(file, length), until, asked).map_err(|error| self.not_read(&error))
    }

    pub fn not_read(&self, error: &io::Error) -> NoAnswer {
        trouble(OsStr::new(&self.name), "read", error)
    }

    pub fn not_written(&self, error: &io::Error) -> NoAnswer {
        NoAnswer(format!("{} can't be written: {error}", self.name))
    }

    /// Puts a history of these bytes in its place, with the permissions and the owner of the record where that is there.
    pub fn put(&self, bytes: &[u8], like: Option<&Metadata>) -> io::Result<()> {
        let target = fs::canonicalize(&self.path);
        let target = target.unwrap_or_else(|_| self.path.clone());
        Fresh::write(&target, bytes, like, HISTORY)?.put()
    }

    /// Keeps a damaged history whole beside its place, under a second name that no other file has; that name. An adoption that was cut off
    /// may have given it one before.
    pub fn keep_damaged(&self) -> io::Result<String> {
        let damaged = fs::canonicalize(&self.path)?;
        let mut number = 1;
        loop {
            let ending = match number {
                1 => String::from(".damaged"),
                _ => format!(".damaged.{number}"),
            };
            let path = PathBuf::from(with_ending(self.path.as_os_str(), &ending));
            match fs::hard_link(&damaged, &path) {
                Ok(()) => stop_for_test("history kept"),
                Err(error) if error.kind() == ErrorKind::AlreadyExists => {
                    if !is_one_file(&damaged, &path) {
                        number += 1;
                        continue;
                    }
                }
                // Where the file system has no second names it is copied.
                Err(_) => {
                    let mut copy = File::create_new(&path)?;
                    io::copy(&mut File::open(&damaged)?, &mut copy)?;
                    copy.sync_all()?;
                }
            }
            sync_folder_of(&path);
            return Ok(format!("{}{ending}", self.name));
        }
    }
}

fn with_ending(path: &OsStr, ending: &str) -> OsString {
    let mut path = path.to_os_string();
    path.push(ending);
    path
}

/// The first bytes of an open file.
pub fn from_start(mut file: &File, length: u64) -> io::Result<impl Read> {
    file.seek(SeekFrom::Start(0))?;
    Ok(file.take(length))
}

/// The bytes of an open file from a place on, so many at most.
pub fn bytes_from(mut file: &File, place: u64, most: u64) -> io::Result<Vec<u8>> {
    let mut bytes = Vec::new();
    file.seek(SeekFrom::Start(place))?;
    file.take(most).read_to_end(&mut bytes)?;
    Ok(bytes)
}

/// The bytes of a history that has only its first entry, and the sum of that.
pub fn started(first: What) -> (Vec<u8>, u64) {
    let first = Entry {
        time: now(),
        what: first,
    };
    let mut bytes = BEGINNING.to_vec();
    let sum = push_entry(&mut bytes, &first.body(), first_sum());
    (bytes, sum)
}

/// Adds an entry to the bytes of a history, after one with this sum: its head, its body and its own sum, which is the answer.
pub fn push_entry(history: &mut Vec<u8>, body: &[u8], sum_before: u64) -> u64 {
    let (bytes, sum) = entry_bytes(body, history.len() as u64, sum_before);
    history.extend(bytes);
    sum
}

/// The bytes of an entry at a place of the file, and its sum.
fn entry_bytes(body: &[u8], place: u64, sum_before: u64) -> (Vec<u8>, u64) {
    let mut bytes = head(body.len() as u32, place).to_vec();
    bytes.extend_from_slice(body);
    let sum = sum(sum_before, &bytes);
    bytes.extend(sum.to_be_bytes());
    (bytes, sum)
}

/// A history that is added to: the byte at which its whole entries end, and the sum of the last.
pub struct Adding {
    pub file: File,
    pub end: u64,
    pub sum: u64,
}

impl Adding {
    /// Adds an entry. Its head is synced before its body is written, so that a loss of power leaves a right head before anything else, whatever
    /// order the bytes reach the disk in. Where this fails, what was written is taken back.
    pub fn add(&mut self, body: &[u8]) -> Result<(), NotAdded> {
        let (bytes, _) = entry_bytes(body, self.end, self.sum);
        self.write(&bytes).map_err(|error| NotAdded {
            error,
            taken_back: self.take_back().is_ok(),
        })
    }

    fn write(&mut self, bytes: &[u8]) -> io::Result<()> {
        let (head, rest) = bytes.split_at(HEAD);
        self.file.write_all(head)?;
        stop_for_test("history head");
        self.file.sync_data()?;
        stop_for_test("history head synced");
        let (first, second) = rest.split_at(rest.len() / 2);
        self.file.write_all(first)?;
        stop_for_test("history entry half");
        self.file.write_all(second)?;
        stop_for_test("history entry");
        self.file.sync_data()?;
        stop_for_test("history entry synced");
        Ok(())
    }

    /// Cuts off all after the whole entries that were there when it was opened.
    pub fn take_back(&mut self) -> io::Result<()> {
        self.file.set_len(self.end)?;
        stop_for_test("history cut");
        self.file.sync_all()?;
        stop_for_test("history cut synced");
        Ok(())
    }
}

/// Why an entry is not added, and whether what was written of it is gone.
pub struct NotAdded {
    pub error: io::Error,
    pub taken_back: bool,
}
