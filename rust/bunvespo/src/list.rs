//! Lists of commands as bytes: version 1, whatever the version of the record, L in four bytes, and for each command six bytes, 05 and
//! its fields.

use std::error::Error;
use std::fmt;

use crate::command::Command;

/// The most commands that one list holds.
pub const MOST_COMMANDS: usize = 10_000;

/// The commands that stand in a written list: `count` of them from the start of `bytes`, or fewer if `bytes` ends before.
///
/// Nothing is tested, not even the version; [`run`](crate::run) tests a list's form.
///
/// ```
/// use bunvespo::{Command, commands, encode};
///
/// let list = encode(&[Command::create_subject(0, 1), Command::destroy_subject(0, 1)])?;
/// assert_eq!(commands(&list, 1).collect::<Vec<_>>(), [Command::create_subject(0, 1)]);
/// assert_eq!(commands(&list, u64::MAX).count(), 2);
/// assert_eq!(commands(&[], 7).count(), 0);
/// # Ok::<(), bunvespo::EncodeError>(())
/// ```
pub fn commands(bytes: &[u8], count: u64) -> impl Iterator<Item = Command> + '_ {
    let records = bytes.get(5..).unwrap_or(&[]).chunks_exact(6);
    let count = usize::try_from(count).unwrap_or(usize::MAX);
    records.take(count).map(|record| {
        let field = |place: usize| u64::from(record[place]);
        Command::new(field(1), field(2), field(3), field(4), field(5))
    })
}

/// Commands written as a list, in their order.
///
/// A field stands in one byte. One that does not fit is an error, and never cut:
///
/// ```
/// use bunvespo::{Command, EncodeError, encode};
///
/// assert_eq!(encode(&[])?, [1, 0, 0, 0, 0]);
/// assert_eq!(encode(&[Command::create_subject(0, 1)])?, [1, 0, 0, 0, 6, 5, 12, 0, 1, 0, 0]);
/// let wide = [Command::create_subject(0, 1), Command::create_subject(0, 256)];
/// assert_eq!(encode(&wide), Err(EncodeError::Field { place: 1 }));
/// # Ok::<(), EncodeError>(())
/// ```
pub fn encode(commands: &[Command]) -> Result<Vec<u8>, EncodeError> {
    if commands.len() > MOST_COMMANDS {
        return Err(EncodeError::TooMany);
    }
    let length = 6 * commands.len() as u32;
    let mut bytes = vec![1];
    bytes.extend_from_slice(&length.to_be_bytes());
    for (place, command) in commands.iter().enumerate() {
        bytes.push(5);
        for field in [command.code, command.i, command.s, command.o, command.k] {
            bytes.push(u8::try_from(field).map_err(|_| EncodeError::Field { place })?);
        }
    }
    Ok(bytes)
}

/// Why commands can't be written as one list.
#[derive(Clone, Copy, Debug, PartialEq, Eq)]
pub enum EncodeError {
    /// There are more than [`MOST_COMMANDS`].
    TooMany,
    /// A field of the command at `place`, counted from 0, is above 255.
    Field {
        /// The command's place among those given.
        place: usize,
    },
}

impl fmt::Display for EncodeError {
    fn fmt(&self, f: &mut fmt::Formatter<'_>) -> fmt::Result {
        match self {
            EncodeError::TooMany => write!(f, "a list holds at most {MOST_COMMANDS} commands"),
            EncodeError::Field { place } => {
                write!(f, "command {}: a field is above 255", place + 1)
            }
        }
    }
}

impl Error for EncodeError {}
