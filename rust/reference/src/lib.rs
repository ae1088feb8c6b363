//! A second implementation, written from the scope paper and the change requests in force alone, whose rules
//! docs/MANUAL.md has. The program `compare` asks it and the proved library the same questions.
//!
//! It is written to be read beside the manual: each rule names its section, and nothing is made fast at the
//! cost of being plain.

mod calls;
mod command;
mod leak;
mod list;
mod record;
mod rights;
mod safety;
mod search;
mod state;
mod valid;
mod version;
mod window;

pub use calls::{
    Answer, Safety, command, first_held, held, run, safety, to_version_1, to_version_2, valid,
};
pub use command::{Command, Uses, allowed, change, decode, decode_in, uses};
pub use leak::leaks_by;
pub use list::{LIST_MAXIMUM, read_list, write_list};
pub use record::{Station, read, record_length, write};
pub use rights::{Cell, Form, Right};
pub use safety::{Question, buffer_minimum, leaks, question};
pub use search::{Names, leaks_by_codes, leaks_by_definition, projected};
pub use state::{Name, State, U, Walk};
pub use version::Version;
pub use window::{WINDOW_SIZE, Window};

/// The number of a refusal, 1 to 19 (Manual 7.1).
pub type Refusal = u64;
