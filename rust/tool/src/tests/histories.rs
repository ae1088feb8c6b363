//! Seeded random histories, with what each of their changes makes of the record.

use crate::history::file::{push_entry, started};
use crate::history::layout::{Entry, RunBytes, What};
use crate::history::origin::Origin;
use crate::history::replay::{NoStart, Replay, replay};
use crate::library::{Command, command};
use crate::tests::random::{Numbers, any_command, station};

/// What a change was: its accepted commands, or an adoption.
pub enum Made {
    Run(Vec<Command>),
    Adopted,
}

/// The bytes of a history, its changes, the record before each of them and after the last, and the byte at which each entry ends.
pub struct History {
    pub bytes: Vec<u8>,
    pub made: Vec<Made>,
    pub records: Vec<Vec<u8>>,
    pub ends: Vec<usize>,
    /// The origin of the rights of its first record.
    pub start: Origin,
    sum: u64,
}

/// The time that the tests give a change of this number.
pub fn time_of(change: u64) -> u64 {
    1_000 + change
}

impl History {
    pub fn new(record: Vec<u8>) -> History {
        History::begun(What::Start(&record), record.clone(), Origin::Start)
    }

    /// A history that begins with an adopted record.
    fn adopted(record: Vec<u8>) -> History {
        let mut history = History::begun(What::Adopted(&record), record.clone(), Origin::Start);
        let time = replayed(&history.bytes, u64::MAX)
            .expect("it is whole")
            .since;
        history.start = Origin::Adopted { change: 0, time };
        history
    }

    fn begun(first: What, record: Vec<u8>, start: Origin) -> History {
        let (bytes, sum) = started(first);
        History {
            start,
            ends: vec![bytes.len()],
            bytes,
            made: Vec::new(),
            records: vec![record],
            sum,
        }
    }

    /// A history of up to so many changes on a random station.
    pub fn random(numbers: &mut Numbers, changes: u64) -> History {
        let first = station(numbers);
        let mut history = match numbers.below(8) {
            0 => History::adopted(first),
            _ => History::new(first),
        };
        for _ in 0..numbers.below(changes + 1) {
            match numbers.below(6) {
                0 => history.adopt_random(numbers),
                _ => history.run_random(numbers),
            }
        }
        history
    }

    pub fn last(&self) -> &[u8] {
        self.records.last().expect("there is a start")
    }

    fn push(&mut self, what: What, made: Made, record: Vec<u8>) {
        let time = time_of(self.made.len() as u64 + 1);
        let body = Entry { time, what }.body();
        self.sum = push_entry(&mut self.bytes, &body, self.sum);
        self.ends.push(self.bytes.len());
        self.made.push(made);
        self.records.push(record);
    }

    /// Adds a run of commands, which ends at the first that the library refuses.
    pub fn run(&mut self, commands: &[Command]) {
        let mut record = self.last().to_vec();
        let refused = commands
            .iter()
            .enumerate()
            .find_map(|(place, c)| Some((place, command(&mut record, *c).err()?)));
        let accepted = refused.map_or(commands.len(), |(place, _)| place);
        let refusal = refused.map(|(_, refused)| refused.refusal);
        let bytes = RunBytes::new(commands.iter().copied());
        let run = bytes.run(accepted, refusal);
        let made = Made::Run(commands[..accepted].to_vec());
        self.push(What::Run(run), made, record);
    }

    /// Adds a run that says of commands that all were accepted, though the library would refuse some.
    pub fn push_forged(&mut self, commands: &[Command]) {
        let bytes = RunBytes::new(commands.iter().copied());
        let run = bytes.run(commands.len(), None);
        let record = self.last().to_vec();
        self.push(What::Run(run), Made::Run(commands.to_vec()), record);
    }

    /// Adds a run of some commands, most of which are accepted; rarely one has a number above 255.
    pub fn run_random(&mut self, numbers: &mut Numbers) {
        let mut copy = self.last().to_vec();
        let mut commands = Vec::new();
        for _ in 0..=numbers.below(30) {
            let c = any_command(numbers, &copy);
            if command(&mut copy, c).is_ok() || numbers.below(40) == 0 {
                commands.push(c);
            }
            if numbers.below(200) == 0 {
                commands.push(Command::new(
                    c.code,
                    c.i,
                    256 + numbers.below(u64::MAX - 256),
                    0,
                    0,
                ));
            }
        }
        if commands.is_empty() {
            commands.push(any_command(numbers, &copy));
        }
        self.run(&commands);
    }

    /// Adopts a record on which unrecorded commands were run, or rarely another one.
    pub fn adopt_random(&mut self, numbers: &mut Numbers) {
        let mut record = match numbers.below(4) {
            0 => station(numbers),
            _ => self.last().to_vec(),
        };
        for _ in 0..numbers.below(12) {
            let c = any_command(numbers, &record);
            let _ = command(&mut record, c);
        }
        self.push(What::Adopted(&record), Made::Adopted, record.clone());
    }
}

/// What bytes make as a history.
pub fn replayed(bytes: &[u8], until: u64) -> Result<Replay, NoStart> {
    replay(|| Ok(bytes), until, None).expect("bytes can be read")
}
