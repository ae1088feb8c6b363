//! The errors of the two calls that count something besides the refusal.

use std::error::Error;
use std::fmt;

use crate::refusal::Refusal;

/// A command that was refused. The record is as it was.
///
/// ```
/// use bunvespo::{Command, CommandRefused, Refusal, command, new_record};
///
/// fn admit(record: &mut [u8]) -> Result<(), CommandRefused> {
///     command(record, Command::create_subject(0, 1))?;
///     command(record, Command::create_subject(1, 2))?;
///     command(record, Command::transfer_own(0, 2, 1))?; // refused: subject 1 owns subject 2
///     Ok(())
/// }
///
/// let mut record = new_record(3, 0)?;
/// let refused = admit(&mut record).unwrap_err();
/// assert_eq!(refused.refusal, Refusal::WalkMeets);
/// assert_eq!((refused.number(), refused.links), (13, 1));
/// assert_eq!(refused.to_string(), "refused 13: the owner walk from s meets o (links followed: 1)");
/// # Ok::<(), Refusal>(())
/// ```
#[derive(Clone, Copy, Debug, PartialEq, Eq, Hash)]
pub struct CommandRefused {
    /// Why, 1 to 14 or 19.
    pub refusal: Refusal,
    /// The owner links that the walk followed, with refusal 13; else 0.
    pub links: u64,
}

impl CommandRefused {
    /// The refusal's number, 1 to 14 or 19.
    pub const fn number(self) -> u8 {
        self.refusal.number()
    }

    /// The refusal's condition in words.
    pub const fn words(self) -> &'static str {
        self.refusal.words()
    }
}

impl fmt::Display for CommandRefused {
    fn fmt(&self, f: &mut fmt::Formatter<'_>) -> fmt::Result {
        match self.refusal {
            Refusal::WalkMeets => write!(f, "{} (links followed: {})", self.refusal, self.links),
            _ => self.refusal.fmt(f),
        }
    }
}

impl Error for CommandRefused {}

impl From<CommandRefused> for Refusal {
    fn from(refused: CommandRefused) -> Refusal {
        refused.refusal
    }
}

/// A list run that ended by a refusal. What was accepted before has changed the record.
///
/// ```
/// use bunvespo::{Command, Refusal, encode, new_record, run};
///
/// let mut record = new_record(2, 0)?;
/// let list = encode(&[Command::create_subject(0, 1), Command::create_subject(0, 1)])?;
/// let refused = run(&mut record, &list).unwrap_err();
/// assert_eq!((refused.accepted, refused.refusal), (1, Refusal::NameExists));
/// assert_eq!(refused.to_string(), "refused 11: the name to be created exists already (commands accepted before: 1)");
/// # Ok::<(), Box<dyn std::error::Error>>(())
/// ```
#[derive(Clone, Copy, Debug, PartialEq, Eq, Hash)]
pub struct RunRefused {
    /// Why: 1 to 5 and 16 before the first command, else the refusal of the command that ended the run.
    pub refusal: Refusal,
    /// The number of commands accepted before it.
    pub accepted: u64,
}

impl RunRefused {
    /// The refusal's number.
    pub const fn number(self) -> u8 {
        self.refusal.number()
    }

    /// The refusal's condition in words.
    pub const fn words(self) -> &'static str {
        self.refusal.words()
    }
}

impl fmt::Display for RunRefused {
    fn fmt(&self, f: &mut fmt::Formatter<'_>) -> fmt::Result {
        write!(
            f,
            "{} (commands accepted before: {})",
            self.refusal, self.accepted
        )
    }
}

impl Error for RunRefused {}

impl From<RunRefused> for Refusal {
    fn from(refused: RunRefused) -> Refusal {
        refused.refusal
    }
}
