//! A record and its history as somebody sees them who only reads, and waits for no lock.

use std::ffi::OsStr;
use std::fs::{self, File};
use std::io;
use std::os::unix::fs::MetadataExt;
use std::thread::sleep;
use std::time::Duration;

use crate::history::file::HistoryFile;
use crate::history::origin::Asked;
use crate::history::replay::{NoStart, Replay};
use crate::input::{called, record_bytes, trouble};
use crate::no_answer::{Answered, no_answer};

/// How often it is tried to read a record while its history stays as it is, and the pause between.
const TRIES: u32 = 2_000;
const PAUSE: Duration = Duration::from_millis(1);

/// A record's bytes, and the bytes of its history at that time.
pub struct Seen {
    pub history: HistoryFile,
    pub file: File,
    /// How many bytes the history had. What is added later is left out.
    pub length: u64,
    pub record: Vec<u8>,
}

impl Seen {
    /// Reads the record of a file between two looks at the length of its history. Where that is the same, nothing was added meanwhile: the
    /// record is the one that these bytes make, or the one before the last change.
    pub fn read(path: &OsStr) -> Answered<Seen> {
        let target = match path {
            path if path == "-" => return no_answer("the standard input has no history"),
            path => fs::canonicalize(path).map_err(|error| trouble(path, "read", &error))?,
        };
        let history = HistoryFile::of(path, &target);
        // What is no file that can be read is told as such, and not as one without a history.
        record_bytes(path)?;
        for _ in 0..TRIES {
            let Some(file) = history.open(false)? else {
                let name = &history.name;
                return no_answer(format!(
                    "{} has no history: there is no file {name}; a run on the record begins one",
                    called(path)
                ));
            };
            let length = file
                .metadata()
                .map_err(|error| history.not_read(&error))?
                .len();
            let record = record_bytes(target.as_os_str())?;
            if is_still(&file, length, &history).map_err(|error| history.not_read(&error))? {
                return Ok(Seen {
                    history,
                    file,
                    length,
                    record,
                });
            }
            sleep(PAUSE);
        }
        no_answer(format!("{} is changed all the time", called(path)))
    }

    /// Replays the history up to a change that is not run any more.
    pub fn replay(&self, until: u64, asked: Option<Asked>) -> Answered<Result<Replay, NoStart>> {
        self.history.replay(&self.file, self.length, until, asked)
    }
}

/// Whether the file of a history is the one that stands in its place, and has so many bytes.
fn is_still(file: &File, length: u64, history: &HistoryFile) -> io::Result<bool> {
    let (open, there) = (
        file.metadata()?,
        match fs::metadata(&history.path) {
            Err(error) if error.kind() == io::ErrorKind::NotFound => return Ok(false),
            found => found?,
        },
    );
    let same = (open.dev(), open.ino()) == (there.dev(), there.ino());
    Ok(same && there.len() == length)
}
