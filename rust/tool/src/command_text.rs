//! The commands that `run` is given: text of one command a line, or the bytes of a list.

use std::iter::repeat_n;

use crate::library::{
    Command, CommandRefused, EncodeError, MOST_COMMANDS, Refusal, command, commands, encode, run,
};
use crate::names::Names;
use crate::record::Record;
use crate::sentence;

/// Commands, each with the line or the place in the list that it has.
pub struct Commands {
    pub place: &'static str,
    pub numbered: Vec<(usize, Command)>,
    /// The bytes, where they were given as a list.
    list: Option<Vec<u8>>,
}

/// How a run went.
pub enum Ran {
    /// All were accepted.
    Whole,
    /// So many were accepted, and the next was refused.
    Refused(usize, CommandRefused),
    /// The list is of the wrong form (16), and nothing was run.
    NoList,
}

/// Reads commands. Text has no control characters but those of spaces and line ends; all else is a list.
pub fn read(bytes: Vec<u8>, record: &Record, names: &Names) -> Result<Commands, String> {
    let text = std::str::from_utf8(&bytes).ok();
    let is_text = |text: &&str| {
        !text
            .chars()
            .any(|c| c.is_control() && !"\t\r\n".contains(c))
    };
    match text.filter(is_text) {
        Some(text) => Ok(Commands {
            place: "line",
            numbered: lines(text, record, names)?,
            list: None,
        }),
        None => Ok(Commands {
            place: "command",
            numbered: (1..).zip(commands(&bytes, MOST_COMMANDS as u64)).collect(),
            list: Some(bytes),
        }),
    }
}

/// The commands of a text. Empty lines and lines that begin with `#` say nothing.
fn lines(text: &str, record: &Record, names: &Names) -> Result<Vec<(usize, Command)>, String> {
    let mut commands = Vec::new();
    for (number, line) in (1..).zip(text.lines()) {
        let line = line.trim();
        if !line.is_empty() && !line.starts_with('#') {
            let parsed = sentence::parse(line, record, names);
            let c = parsed.map_err(|why| format!("line {number}: {why}"))?;
            commands.push((number, c));
        }
    }
    Ok(commands)
}

impl Commands {
    /// Runs them on a record, which keeps what is accepted. A text of more commands than a list has is run in pieces.
    pub fn run(&self, record: &mut Record) -> Ran {
        if let Some(list) = &self.list {
            return match run(&mut record.bytes, list) {
                Ok(_) => Ran::Whole,
                Err(refused) if refused.refusal == Refusal::ListForm => Ran::NoList,
                Err(refused) => self.refused(refused.accepted as usize, record),
            };
        }
        let commands: Vec<Command> = self.numbered.iter().map(|(_, c)| *c).collect();
        let mut done = 0;
        while done < commands.len() {
            let (list, count) = piece(&commands[done..]);
            if let Err(refused) = run(&mut record.bytes, &list) {
                return self.refused(done + refused.accepted as usize, record);
            }
            done += count;
            if count == 0 {
                return self.refused(done, record);
            }
        }
        Ran::Whole
    }

    /// How many commands a run accepted, and the refusal that ended it.
    pub fn outcome(&self, ran: &Ran) -> (usize, Option<Refusal>) {
        match ran {
            Ran::Whole => (self.numbered.len(), None),
            Ran::Refused(accepted, refused) => (*accepted, Some(refused.refusal)),
            Ran::NoList => (0, None),
        }
    }

    /// The commands that a run tried, in order: the initiator of each and its outcome, which is 0 where it was accepted and else the
    /// number of the refusal.
    pub fn tried(&self, ran: &Ran) -> Vec<(u64, u64)> {
        let (accepted, refusal) = self.outcome(ran);
        let refused = refusal.map(|refusal| u64::from(refusal.number()));
        let outcomes = repeat_n(0, accepted).chain(refused);
        let initiators = self.numbered.iter().map(|(_, c)| c.i);
        initiators.zip(outcomes).collect()
    }

    /// Asks for the command that ended a run once more by itself, which tells the links of its owner walk and changes nothing.
    fn refused(&self, accepted: usize, record: &Record) -> Ran {
        let mut copy = record.bytes.clone();
        match command(&mut copy, self.numbered[accepted].1) {
            Err(refused) => Ran::Refused(accepted, refused),
            Ok(_) => unreachable!("the library refused this command on this record before"),
        }
    }
}

/// The longest beginning that one list takes, and its number of commands: it ends before a command with a number above 255, which
/// stands in no list and is refused by itself.
fn piece(commands: &[Command]) -> (Vec<u8>, usize) {
    let most = &commands[..commands.len().min(MOST_COMMANDS)];
    let count = match encode(most) {
        Err(EncodeError::Field { place }) => place,
        _ => most.len(),
    };
    let list = encode(&most[..count]);
    (
        list.expect("the fields before fit and are few enough"),
        count,
    )
}
