//! A history that is opened for a change of its record, while that is locked. What a change that was cut off left is finished or dropped
//! first. A record that is not what its history makes of it is not changed.

use std::ffi::OsStr;
use std::fs::File;
use std::io;

use crate::history::entries::Rest;
use crate::history::file::{Adding, HistoryFile, NotAdded, started};
use crate::history::layout::{Entry, RunBytes, What};
use crate::history::replay::{NoStart, Replay};
use crate::history::time::now;
use crate::input::called;
use crate::library::{Command, Refusal};
use crate::no_answer::{Answered, NoAnswer};
use crate::replace::Locked;

/// How a record stands to its history.
#[derive(Clone, Copy, Debug, PartialEq, Eq)]
pub enum Standing {
    /// It is what the history makes.
    Agrees,
    /// It is what the history makes but for the last change, which is being made or was cut off after it was written.
    Unfinished,
    /// It is something else.
    Differs,
}

impl Replay {
    pub fn standing(&self, record: &[u8]) -> Standing {
        let before = self.before.as_deref();
        if record == self.record {
            Standing::Agrees
        } else if self.rest == Rest::Nothing && before == Some(record) {
            Standing::Unfinished
        } else {
            Standing::Differs
        }
    }

    /// Whether the record may be changed: the history is not damaged, and makes it.
    fn is_kept(&self, record: &[u8]) -> bool {
        !matches!(self.rest, Rest::Damaged(_)) && self.standing(record) != Standing::Differs
    }
}

/// What a change that was cut off asks for.
enum Todo {
    Nothing,
    /// The record is to be replaced by this one, which is that after the last change, whose number this is.
    Finish(Vec<u8>, u64),
    /// The end of the history is to be cut off.
    Drop,
}

/// The history of a record that is about to be changed.
pub struct Kept {
    record_file: String,
    history: HistoryFile,
    /// None where the history is to be begun.
    adding: Option<Adding>,
    todo: Todo,
}

impl Kept {
    /// Opens the history of a locked record. Nothing is written yet.
    pub fn open(given: &OsStr, locked: &Locked, record: &[u8]) -> Answered<Result<Kept, NotKept>> {
        let history = HistoryFile::of(given, locked.target());
        let record_file = called(given);
        let Some(file) = history.open(true)? else {
            return Ok(Ok(Kept {
                record_file,
                history,
                adding: None,
                todo: Todo::Nothing,
            }));
        };
        let replay = history.replay(&file, u64::MAX, u64::MAX, None)?;
        let replay = match replay {
            Ok(replay) if replay.is_kept(record) => replay,
            replay => {
                return Ok(Err(NotKept {
                    record_file,
                    history,
                    file,
                    replay,
                }));
            }
        };
        let (end, sum) = (replay.end, replay.sum);
        Ok(Ok(Kept {
            record_file,
            history,
            adding: Some(Adding { file, end, sum }),
            todo: todo(replay, record),
        }))
    }

    /// Whether the history is to be begun.
    pub fn is_new(&self) -> bool {
        self.adding.is_none()
    }

    /// How the history is called.
    pub fn name(&self) -> &str {
        &self.history.name
    }

    /// The record as it is after the last change, where that is to be finished.
    pub fn finished(&self) -> Option<&[u8]> {
        match &self.todo {
            Todo::Finish(record, _) => Some(record),
            _ => None,
        }
    }

    /// Finishes or drops what was cut off, and says so.
    pub fn recover(&mut self, locked: &mut Locked) -> Answered<String> {
        match std::mem::replace(&mut self.todo, Todo::Nothing) {
            Todo::Nothing => Ok(String::new()),
            Todo::Finish(record, number) => {
                let fresh = locked.prepare(&record)?;
                locked.put(fresh)?;
                Ok(format!(
                    "Change {number}, which was cut off, is finished.\n"
                ))
            }
            Todo::Drop => {
                let cut = self.adding.as_mut().map_or(Ok(()), Adding::take_back);
                cut.map_err(|error| self.history.not_written(&error))?;
                Ok(dropped(&self.history))
            }
        }
    }

    /// Writes the commands of a run, before its record is replaced, and says whether the history is begun by that.
    pub fn add(
        &mut self,
        locked: &Locked,
        record: &[u8],
        commands: impl Iterator<Item = Command>,
        accepted: usize,
        refusal: Option<Refusal>,
    ) -> Answered<String> {
        let begun = self.begin(locked, record)?;
        let bytes = RunBytes::new(commands);
        let entry = Entry {
            time: now(),
            what: What::Run(bytes.run(accepted, refusal)),
        };
        let adding = self.adding.as_mut().expect("it is begun");
        let added = adding.add(&entry.body());
        added.map_err(|why| not_added(&why, &self.record_file, &self.history))?;
        Ok(begun)
    }

    /// Begins the history where there is none, with the record as it stands.
    pub fn begin(&mut self, locked: &Locked, record: &[u8]) -> Answered<String> {
        if self.adding.is_some() {
            return Ok(String::new());
        }
        let (name, record_file) = (&self.history.name, &self.record_file);
        let failed = |error: io::Error| {
            NoAnswer(format!(
                "{name} can't be made: {error}; {record_file} is left as it is"
            ))
        };
        let (end, sum) = begin(&self.history, locked, record).map_err(failed)?;
        let file = self.history.open(true)?;
        let file = file.ok_or_else(|| NoAnswer(format!("{name} is gone again")))?;
        self.adding = Some(Adding { file, end, sum });
        Ok(format!("{name} is begun.\n"))
    }

    /// Takes the last entry back, where its record could not be replaced; the sentence for that.
    pub fn take_back(&mut self, NoAnswer(why): NoAnswer) -> NoAnswer {
        let cut = self.adding.as_mut().map_or(Ok(()), Adding::take_back);
        let name = &self.history.name;
        NoAnswer(match cut {
            Ok(()) => why,
            Err(_) => format!("{why}; but the change stands in {name}, and the next run makes it"),
        })
    }
}

/// Begins a history with the record as it stands; the byte at which its start ends, and the sum of that.
pub fn begin(history: &HistoryFile, locked: &Locked, record: &[u8]) -> io::Result<(u64, u64)> {
    let (bytes, sum) = started(What::Start(record));
    history.put(&bytes, locked.old()?.as_ref())?;
    Ok((bytes.len() as u64, sum))
}

/// That the end of a history was dropped.
pub fn dropped(history: &HistoryFile) -> String {
    let name = &history.name;
    format!("A change that was cut off while it was written is dropped from {name}.\n")
}

/// Why an entry is not added, as a sentence.
pub fn not_added(why: &NotAdded, record_file: &str, history: &HistoryFile) -> NoAnswer {
    let NoAnswer(sentence) = history.not_written(&why.error);
    NoAnswer(if why.taken_back {
        format!("{sentence}; {record_file} is left as it is")
    } else {
        format!(
            "{sentence}; {record_file} is left as it is, but what was written of the change could not be taken back"
        )
    })
}

/// A history because of which its record is not changed: it is damaged, or the record is not what it makes.
pub struct NotKept {
    pub record_file: String,
    pub history: HistoryFile,
    pub file: File,
    pub replay: Result<Replay, NoStart>,
}

impl NotKept {
    /// Where and by what the history is damaged, if it is.
    pub fn damage(&self) -> Option<String> {
        match &self.replay {
            Err(NoStart(why)) => Some(damage(0, 0, why)),
            Ok(replay) => match replay.rest {
                Rest::Damaged(why) => Some(damage(replay.changes + 1, replay.end, why)),
                _ => None,
            },
        }
    }

    pub fn told(&self) -> NoAnswer {
        let (name, record_file) = (&self.history.name, &self.record_file);
        let what = match self.damage() {
            Some(damage) => format!("{name} is damaged {damage}"),
            None => format!("{record_file} is not what {name} makes of it"),
        };
        NoAnswer(format!(
            "{what}; 'audit {record_file}' tells more, and 'adopt {record_file}' takes the record in as it is"
        ))
    }
}

/// Where a history is damaged and by what.
pub fn damage(change: u64, byte: u64, why: &str) -> String {
    match change {
        0 => format!("at its start: {why}"),
        _ => format!("at change {change}, from byte {byte} on: {why}"),
    }
}

/// What stands after the whole entries of a history, as a sentence, if anything does.
pub fn told_rest(replay: &Replay, name: &str) -> Option<String> {
    let end = replay.end;
    match replay.rest {
        Rest::Nothing => None,
        Rest::CutOff => Some(format!(
            "A change is being written to {name} from byte {end} on, or was cut off there, and then the next that is written drops it"
        )),
        Rest::Damaged(why) => Some(format!(
            "{name} is damaged {}",
            damage(replay.changes + 1, end, why)
        )),
    }
}

/// What is to be done before a record is changed.
fn todo(replay: Replay, record: &[u8]) -> Todo {
    match (replay.standing(record), replay.rest) {
        (Standing::Unfinished, _) => Todo::Finish(replay.record, replay.changes),
        (_, Rest::Nothing) => Todo::Nothing,
        _ => Todo::Drop,
    }
}
