//! All that the tool takes of the proved library: its calls, and the types of what they are asked and answer. No other module names the
//! crate `bunvespo`.

pub use bunvespo::{
    Basic, Command, CommandRefused, EncodeError, Header, MOST_COMMANDS, MOST_PLAIN,
    MOST_RECORD_BYTES, MOST_SUBJECTS, Refusal, Right, WINDOW_ENTRIES, WINDOW_NUMBERS, WINDOW_SIZE,
    Window, check, code, command, commands, encode, first_held, held, new_record, run,
    to_version_1, to_version_2, trust_mask, valid, witness,
};
