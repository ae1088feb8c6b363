//! Accepted commands of several changes, gathered so that the library runs them as one list.

use crate::history::layout::listed_command;
use crate::library::{Command, MOST_COMMANDS, run};

/// The bytes of each command of a list.
const COMMAND: usize = 6;

/// A change whose commands stand in the batch: its number and time, the place of its first command in the batch, and how many of its
/// commands were run with an earlier batch.
#[derive(Clone, Copy)]
struct Part {
    change: u64,
    time: u64,
    from: usize,
    run_before: usize,
}

/// A command of a change, in the order in which they stand there, counted from 1.
#[derive(Clone, Copy, Debug, PartialEq, Eq)]
pub struct Place {
    pub change: u64,
    pub time: u64,
    pub number: usize,
}

/// Commands that are to be run, six bytes each.
pub struct Batch {
    bytes: Vec<u8>,
    parts: Vec<Part>,
    /// Room for a list of some of them.
    list: Vec<u8>,
}

impl Batch {
    pub fn new() -> Batch {
        Batch {
            bytes: Vec::new(),
            parts: Vec::new(),
            list: Vec::new(),
        }
    }

    /// How many commands there are.
    pub fn len(&self) -> usize {
        self.bytes.len() / COMMAND
    }

    /// How many more a list takes.
    pub fn room(&self) -> usize {
        MOST_COMMANDS - self.len()
    }

    /// Adds commands of a change, of which so many were run with an earlier batch.
    pub fn push(&mut self, change: u64, time: u64, run_before: usize, commands: &[u8]) {
        self.parts.push(Part {
            change,
            time,
            from: self.len(),
            run_before,
        });
        self.bytes.extend_from_slice(commands);
    }

    pub fn clear(&mut self) {
        self.bytes.clear();
        self.parts.clear();
    }

    /// The commands of a range as a list.
    pub fn list(&mut self, from: usize, to: usize) -> &[u8] {
        let length = (COMMAND * (to - from)) as u32;
        self.list.clear();
        self.list.push(1);
        self.list.extend(length.to_be_bytes());
        let commands = &self.bytes[COMMAND * from..COMMAND * to];
        self.list.extend_from_slice(commands);
        &self.list
    }

    /// Runs the commands of a range; the change of the one that is refused, where one is.
    pub fn run(&mut self, from: usize, to: usize, record: &mut [u8]) -> Result<(), u64> {
        if from == to {
            return Ok(());
        }
        match run(record, self.list(from, to)) {
            Ok(_) => Ok(()),
            Err(refused) => Err(self.place(from + refused.accepted as usize).change),
        }
    }

    /// The bytes of the commands of a range, six each.
    pub fn commands(&self, from: usize, to: usize) -> &[u8] {
        &self.bytes[COMMAND * from..COMMAND * to]
    }

    /// The command at a place.
    pub fn command(&self, at: usize) -> Command {
        listed_command(self.commands(at, at + 1))
    }

    /// Which command of which change stands at a place.
    pub fn place(&self, at: usize) -> Place {
        let after = self.parts.partition_point(|part| part.from <= at);
        let part = self.parts[after - 1];
        Place {
            change: part.change,
            time: part.time,
            number: part.run_before + at - part.from + 1,
        }
    }
}
