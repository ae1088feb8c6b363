//! What a history makes of the record with which it begins. Every command is run by the library, as part of a list.

use std::io::{self, Read};

use crate::history::batch::Batch;
use crate::history::entries::{Entries, Next, Rest};
use crate::history::layout::{Entry, Run, What};
use crate::history::origin::{Asked, Origin, Search};
use crate::library::valid;

/// What the whole entries of a history make, and what stands after them.
pub struct Replay {
    /// When it was begun.
    pub since: u64,
    /// The record after the last change.
    pub record: Vec<u8>,
    /// The record before the last change, where that is a run: the one that is there while the change is not finished.
    pub before: Option<Vec<u8>>,
    /// How many changes there are, and how many commands were accepted in them.
    pub changes: u64,
    pub accepted: u64,
    /// The adoptions among the changes: the number and the time of each. The number is 0 where the history begins with one.
    pub adopted: Vec<(u64, u64)>,
    /// The byte at which the last whole entry ends, and its sum.
    pub end: u64,
    pub sum: u64,
    pub rest: Rest,
    /// Since when the right that was asked for is held after the last change, and before it.
    pub origins: [Option<Origin>; 2],
}

impl Replay {
    /// Whether there is nothing but a start: so it is beside a record that is made, until its first change.
    pub fn is_made_alone(&self) -> bool {
        self.changes == 0 && self.adopted.is_empty() && self.rest == Rest::Nothing
    }
}

/// Why nothing of a history can be used.
#[derive(Debug, PartialEq, Eq)]
pub struct NoStart(pub &'static str);

pub const NOT_REPEATED: &str =
    "the library does not accept its commands, or its record is not valid";

/// Replays a history up to the change `until`, which is not run any more. `open` gives its bytes from the first on. Where the library does not
/// repeat a change, the changes before it are replayed, and the rest is damaged.
pub fn replay<R: Read>(
    open: impl Fn() -> io::Result<R>,
    until: u64,
    asked: Option<Asked>,
) -> io::Result<Result<Replay, NoStart>> {
    match pass(open()?, until, asked)? {
        Err(Fault::NoStart(why)) => Ok(Err(NoStart(why))),
        Ok(replay) => Ok(Ok(replay)),
        Err(Fault::Change(number)) => match pass(open()?, number, asked)? {
            Ok(mut before) => {
                before.rest = Rest::Damaged(NOT_REPEATED);
                Ok(Ok(before))
            }
            Err(_) => Ok(Err(NoStart(NOT_REPEATED))),
        },
    }
}

/// What ends a pass: there is no start, or a change is not repeated.
enum Fault {
    NoStart(&'static str),
    Change(u64),
}

/// One pass over the entries.
fn pass<R: Read>(from: R, until: u64, asked: Option<Asked>) -> io::Result<Result<Replay, Fault>> {
    let mut entries = Entries::new(from);
    let start = match entries.next()? {
        Next::Entry(Entry {
            time,
            what: What::Start(record),
        }) if valid(record) => Running::new(time, record, None, asked),
        Next::Entry(Entry {
            time,
            what: What::Adopted(record),
        }) if valid(record) => Running::new(time, record, Some(time), asked),
        Next::End(Rest::Damaged(why)) => return Ok(Err(Fault::NoStart(why))),
        Next::Entry(_) => return Ok(Err(Fault::NoStart("the record of its start is not valid"))),
        Next::End(_) => return Ok(Err(Fault::NoStart("it ends within its start"))),
    };
    let mut running = start;
    let mut rest = Rest::Nothing;
    while running.changes + 1 < until {
        match entries.next()? {
            Next::End(end) => {
                rest = end;
                break;
            }
            Next::Entry(entry) => {
                if let Err(change) = running.take(&entry) {
                    return Ok(Err(Fault::Change(change)));
                }
            }
        }
    }
    Ok(match running.flush() {
        Err(change) => Err(Fault::Change(change)),
        Ok(()) => Ok(running.replay(entries.end, entries.sum, rest)),
    })
}

/// A replay while it goes on.
struct Running {
    since: u64,
    record: Vec<u8>,
    before: Vec<u8>,
    changes: u64,
    accepted: u64,
    adopted: Vec<(u64, u64)>,
    /// Commands that are not run yet, and where among them the last change begins, unless some of its commands were run.
    batch: Batch,
    last_from: Option<usize>,
    search: Option<Search>,
}

impl Running {
    /// Begins with a record, which may be one that was adopted.
    fn new(time: u64, record: &[u8], adopted: Option<u64>, asked: Option<Asked>) -> Running {
        let mut search = asked.map(Search::new);
        let origin = |time| Origin::Adopted { change: 0, time };
        if let Some(search) = &mut search {
            search.put(record, adopted.map_or(Origin::Start, origin));
        }
        Running {
            since: time,
            record: record.to_vec(),
            before: record.to_vec(),
            changes: 0,
            accepted: 0,
            adopted: adopted.map(|time| (0, time)).into_iter().collect(),
            batch: Batch::new(),
            last_from: None,
            search,
        }
    }

    /// One more change; the number of a change that is not repeated, where one is.
    fn take(&mut self, entry: &Entry) -> Result<(), u64> {
        self.changes += 1;
        match &entry.what {
            What::Run(run) => self.gather(entry.time, run),
            What::Adopted(record) => self.adopt(entry.time, record),
            What::Start(_) => Err(self.changes),
        }
    }

    /// Adds the accepted commands of a run to the batch, which is run where it is full.
    fn gather(&mut self, time: u64, run: &Run) -> Result<(), u64> {
        self.accepted += run.accepted as u64;
        self.last_from = Some(self.batch.len());
        let (mut rest, mut done) = (run.accepted_bytes(), 0);
        loop {
            let (now, later) = rest.split_at(rest.len().min(6 * self.batch.room()));
            self.batch.push(self.changes, time, done, now);
            if later.is_empty() {
                return Ok(());
            }
            done += now.len() / 6;
            rest = later;
            self.flush()?;
        }
    }

    fn adopt(&mut self, time: u64, record: &[u8]) -> Result<(), u64> {
        self.flush()?;
        if !valid(record) {
            return Err(self.changes);
        }
        self.adopted.push((self.changes, time));
        self.record.clear();
        self.record.extend_from_slice(record);
        if let Some(search) = &mut self.search {
            let change = self.changes;
            search.mark();
            search.put(record, Origin::Adopted { change, time });
        }
        Ok(())
    }

    /// Runs the batch, and keeps the record that stands before the last change.
    fn flush(&mut self) -> Result<(), u64> {
        let count = self.batch.len();
        let from = match self.last_from.take() {
            None => 0,
            Some(from) => {
                self.run(0, from)?;
                self.before.clone_from(&self.record);
                if let Some(search) = &mut self.search {
                    search.mark();
                }
                from
            }
        };
        self.run(from, count)?;
        self.batch.clear();
        Ok(())
    }

    fn run(&mut self, from: usize, to: usize) -> Result<(), u64> {
        match &mut self.search {
            Some(search) => search.run(&mut self.batch, from, to, &mut self.record),
            None => self.batch.run(from, to, &mut self.record),
        }
    }

    fn replay(self, end: u64, sum: u64, rest: Rest) -> Replay {
        let adopted_last = self.adopted.last().map(|(change, _)| *change) == Some(self.changes);
        let is_run = self.changes > 0 && !adopted_last;
        let search = self.search.as_ref();
        Replay {
            since: self.since,
            before: is_run.then_some(self.before),
            changes: self.changes,
            accepted: self.accepted,
            end,
            sum,
            rest,
            origins: [
                search.and_then(|search| search.since),
                search.and_then(|search| search.before),
            ],
            record: self.record,
            adopted: self.adopted,
        }
    }
}
