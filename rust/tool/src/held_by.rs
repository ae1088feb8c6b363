//! By what a login holds a right whose own bit is not set. That it holds it is the library's answer.

use crate::library::{Right, held};
use crate::names::Names;
use crate::record::Record;

/// The right by whose bit another is held, whose own bit is not set: the starred form of a plain one, or own.
pub fn held_by(record: &Record, login: u64, column: u64, right: Right) -> Option<Right> {
    let held = held(&record.bytes, login, column, right) == Ok(true);
    if !held || record.bit(login, column, right) {
        return None;
    }
    match right {
        Right::Plain(k) if record.bit(login, column, Right::Starred(k)) => Some(Right::Starred(k)),
        _ => Some(Right::Own),
    }
}

/// The end of a sentence that says what a login holds.
pub fn told(by: Option<Right>, names: &Names) -> String {
    by.map_or_else(String::new, |by| format!(", by {}", names.right(by)))
}
