//! Safe calls of the proved library Bunvespo, which keeps the rights record of a log station: who owns, controls and may read each
//! login (subject) and each log (plain object), as bytes.
//!
//! There are eight calls on a record: [`valid`], [`held`], [`command`], [`run`], [`safety`] and [`first_held`], and [`to_version_1`] and
//! [`to_version_2`], which convert it; [`check`] and [`witness`] are two of them in another form. Each takes any bytes, an empty slice
//! too, and any numbers as names; one that is out of range is refused and never wraps. Errors are types that `?` takes, each with the
//! refusal's number and words. The calls keep nothing between them, so threads may call them at the same time; who may write a record is
//! for Rust's borrows. A [`Window`] counts the commands that were refused of late.
//!
//! A record is of version 1, with seven basic rights, or of version 2, with fifteen. Every call takes both, and none but the
//! conversions gives a record another version.
//!
//! ```
//! use bunvespo::{Basic, Command, Right, command, held, new_record};
//!
//! fn main() -> Result<(), Box<dyn std::error::Error>> {
//!     // A station with room for three logins and one log. Login 0 exists from the start; columns 0 to 2 are logins, 3 is the log.
//!     let mut record = new_record(3, 1)?;
//!     command(&mut record, Command::create_subject(0, 1))?;
//!     command(&mut record, Command::create_object(1, 3))?;
//!     command(&mut record, Command::grant_starred(1, 0, 3, Basic::R0))?;
//!     assert!(held(&record, 0, 3, Right::Plain(Basic::R0))?);
//!     Ok(())
//! }
//! ```
//!
//! The bytes of records, lists and windows are described in `include/bunvespo.h`. [`raw`] has the exports of the archive as they are, for
//! rights that are only numbers and for pointers.

#![deny(missing_docs)]

mod calls;
mod command;
mod convert;
mod header;
mod list;
pub mod raw;
mod refusal;
mod refused;
mod right;
mod window;

pub use calls::{
    Safety, check, command, first_held, held, run, safety, trust_mask, valid, witness,
};
pub use command::{Command, code};
pub use convert::{to_version_1, to_version_2};
pub use header::{Header, MOST_PLAIN, MOST_RECORD_BYTES, MOST_SUBJECTS, buffer_size, new_record};
pub use list::{EncodeError, MOST_COMMANDS, commands, encode};
pub use refusal::Refusal;
pub use refused::{CommandRefused, RunRefused};
pub use right::{Basic, ParseRightError, Right};
pub use window::{WINDOW_ENTRIES, WINDOW_NUMBERS, WINDOW_SIZE, Window};
