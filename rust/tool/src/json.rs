//! JSON as text, for scripts.

use std::fmt::Write;

use crate::library::{Command, Right};
use crate::names::Names;
use crate::record::{Name, column_of};

/// A text as a JSON string.
pub fn text(text: &str) -> String {
    let mut out = String::from("\"");
    for c in text.chars() {
        match c {
            '"' => out.push_str("\\\""),
            '\\' => out.push_str("\\\\"),
            c if c < ' ' || c == '\x7f' => {
                write!(out, "\\u{:04x}", c as u32).expect("a string takes all")
            }
            c => out.push(c),
        }
    }
    out.push('"');
    out
}

/// Named values as a JSON object.
pub fn object(fields: &[(&str, String)]) -> String {
    let fields = fields
        .iter()
        .map(|(name, value)| format!("{}:{value}", text(name)));
    format!("{{{}}}", fields.collect::<Vec<_>>().join(","))
}

/// Values as a JSON array.
pub fn array(values: impl Iterator<Item = String>) -> String {
    format!("[{}]", values.collect::<Vec<_>>().join(","))
}

/// A login or log: its kind, its number and how it is printed.
pub fn name(name: Name, names: &Names) -> String {
    let kind = match name {
        Name::Login(_) => "login",
        Name::Log(_) => "log",
    };
    object(&[
        ("kind", text(kind)),
        ("column", column_of(name).to_string()),
        ("name", text(&names.label(name))),
    ])
}

/// A right: its code and how it is printed.
pub fn right(right: Right, names: &Names) -> String {
    object(&[
        ("code", right.code().to_string()),
        ("name", text(&names.right_label(right))),
    ])
}

/// A command: its five numbers and its words.
pub fn command(c: Command, words: &str) -> String {
    object(&command_fields(c, words))
}

/// The fields of a command, to which others may be added.
pub fn command_fields(c: Command, words: &str) -> [(&'static str, String); 6] {
    [
        ("code", c.code.to_string()),
        ("i", c.i.to_string()),
        ("s", c.s.to_string()),
        ("o", c.o.to_string()),
        ("k", c.k.to_string()),
        ("words", text(words)),
    ]
}
