//! Where a right comes from: the command after which it was held and is held since, found while a history is replayed.

use crate::history::batch::{Batch, Place};
use crate::history::layout::listed_command;
use crate::library::{Command, Right, code, first_held, held};
use crate::record::{Name, Record, column_of};

/// The right that is asked for.
#[derive(Clone, Copy)]
pub struct Asked {
    pub login: u64,
    pub over: Name,
    pub right: Right,
}

/// Since when a right is held.
#[derive(Clone, Copy, Debug, PartialEq, Eq)]
pub enum Origin {
    /// Since the record with which the history begins.
    Start,
    /// Since a command.
    Command { place: Place, command: Command },
    /// Since a record that was changed from outside and adopted.
    Adopted { change: u64, time: u64 },
}

/// The origin of a right, as far as the history is replayed: none while it is not held.
pub struct Search {
    asked: Asked,
    pub since: Option<Origin>,
    /// The origin before the last change.
    pub before: Option<Origin>,
    /// Whether the record has the names that are asked for, which only another record can change.
    fits: bool,
    /// Room for a record, lent to the library, and the record before the commands that are run.
    copy: Vec<u8>,
    start: Vec<u8>,
}

impl Search {
    pub fn new(asked: Asked) -> Search {
        Search {
            asked,
            since: None,
            before: None,
            fits: false,
            copy: Vec::new(),
            start: Vec::new(),
        }
    }

    /// Another record: the one of the start or an adopted one, which gives the right where it was not held before.
    pub fn put(&mut self, record: &[u8], origin: Origin) {
        let Asked { login, over, .. } = self.asked;
        self.copy.resize(record.len(), 0);
        self.fits = Record::shaped(record).is_ok_and(|record| {
            let column = column_of(over);
            login < record.logins() && column < record.columns() && record.name(column) == over
        });
        self.since = if self.is_held(record) {
            self.since.or(Some(origin))
        } else {
            None
        };
    }

    /// Notes the origin before a change.
    pub fn mark(&mut self) {
        self.before = self.since;
    }

    /// Runs the commands of a range; the change of the one that is refused, where one is. Where the right is held at the end, it is since the
    /// first command that gives it after the last one that takes it.
    pub fn run(
        &mut self,
        batch: &mut Batch,
        from: usize,
        to: usize,
        record: &mut [u8],
    ) -> Result<(), u64> {
        self.start.clear();
        self.start.extend_from_slice(record);
        batch.run(from, to, record)?;
        if !self.is_held(record) {
            self.since = None;
            return Ok(());
        }
        let lost = self.last_lost(batch, from, to)?;
        if lost.is_some() || self.since.is_none() {
            self.since = self.first_after(batch, from, lost.unwrap_or(from), to)?;
        }
        Ok(())
    }

    /// The record after the first commands of a range.
    fn after(&self, batch: &mut Batch, from: usize, at: usize) -> Result<Vec<u8>, u64> {
        let mut record = self.start.clone();
        batch.run(from, at, &mut record)?;
        Ok(record)
    }

    /// The place after the last command of a range after which the right is not held. The commands that may take it are looked at from the
    /// last one on, in parts that are each twice as long as the one before, so that no more of them are looked at than twice what is needed.
    fn last_lost(&self, batch: &mut Batch, from: usize, to: usize) -> Result<Option<usize>, u64> {
        let places = self.that_take(batch, from, to);
        let (mut end, mut length) = (places.len(), 1);
        while end > 0 {
            let begin = end.saturating_sub(length);
            let mut record = self.after(batch, from, places[begin])?;
            let mut lost = None;
            for part in begin..end {
                if part > begin {
                    batch.run(places[part - 1], places[part], &mut record)?;
                }
                if !self.is_held(&record) {
                    lost = Some(places[part]);
                }
            }
            if lost.is_some() {
                return Ok(lost);
            }
            (end, length) = (begin, 2 * length);
        }
        Ok(None)
    }

    /// The first command from a place of a range on that gives the right, which is not held there.
    fn first_after(
        &mut self,
        batch: &mut Batch,
        from: usize,
        at: usize,
        to: usize,
    ) -> Result<Option<Origin>, u64> {
        let Asked { login, over, right } = self.asked;
        let (record, column) = (self.after(batch, from, at)?, column_of(over));
        let list = batch.list(at, to);
        let first = first_held(&record, list, login, column, right, &mut self.copy);
        let first = first.ok().flatten().filter(|commands| *commands > 0);
        Ok(first.map(|commands| {
            let last = at + commands as usize - 1;
            Origin::Command {
                place: batch.place(last),
                command: batch.command(last),
            }
        }))
    }

    /// The places after the commands of a range that may take the right from its holder. Only these codes clear a bit, and no command changes one
    /// that it does not name: so it names the holder's cell, or the column as one that is transferred or destroyed, or destroys the holder.
    fn that_take(&self, batch: &Batch, from: usize, to: usize) -> Vec<usize> {
        let Asked { login, over, .. } = self.asked;
        let column = column_of(over);
        let takes = |bytes: &[u8]| {
            let c = listed_command(bytes);
            match c.code {
                code::DESTROY_SUBJECT => c.s == column || c.s == login,
                code::TRANSFER_OWN | code::DESTROY_OBJECT => c.o == column,
                code::DELETE | code::DELETE_STARRED => c.s == login && c.o == column,
                _ => false,
            }
        };
        let commands = (from + 1..).zip(batch.commands(from, to).chunks_exact(6));
        let taking = commands.filter(|(_, bytes)| takes(bytes));
        taking.map(|(place, _)| place).collect()
    }

    fn is_held(&self, record: &[u8]) -> bool {
        let Asked { login, over, right } = self.asked;
        self.fits && held(record, login, column_of(over), right) == Ok(true)
    }
}
