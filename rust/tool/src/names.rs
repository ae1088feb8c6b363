//! The names that people give logins, logs and basic rights, and how each is printed.

use std::collections::BTreeMap;

use crate::library::{Basic, Right};
use crate::record::Name;

/// The names of a station. What has none is printed by its number.
#[derive(Default)]
pub struct Names {
    pub of_names: BTreeMap<Name, String>,
    pub of_rights: BTreeMap<Basic, String>,
}

impl Names {
    /// A login or log in a sentence. A name with a space stands in quotes, as `run` takes it.
    pub fn name(&self, name: Name) -> String {
        match self.of_names.get(&name) {
            Some(given) => quoted(given),
            None => by_number(name),
        }
    }

    /// A login in a sentence.
    pub fn login(&self, s: u64) -> String {
        self.name(Name::Login(s))
    }

    /// A right in a sentence.
    pub fn right(&self, right: Right) -> String {
        quoted(&self.right_label(right))
    }

    /// A login or log where it stands alone.
    pub fn label(&self, name: Name) -> String {
        match self.of_names.get(&name) {
            Some(given) => given.clone(),
            None => by_number(name),
        }
    }

    /// A right where it stands alone.
    pub fn right_label(&self, right: Right) -> String {
        let (k, star) = match right {
            Right::Own | Right::Control => return right.to_string(),
            Right::Plain(k) => (k, ""),
            Right::Starred(k) => (k, "*"),
        };
        match self.of_rights.get(&k) {
            Some(given) => format!("{given}{star}"),
            None => right.to_string(),
        }
    }

    /// Some logins in a sentence.
    pub fn logins(&self, logins: &[u64]) -> String {
        listed(logins.iter().map(|s| self.login(*s)))
    }

    /// Some rights in a sentence.
    pub fn rights(&self, rights: &[Right]) -> String {
        listed(rights.iter().map(|right| self.right(*right)))
    }
}

/// A login or log by its number.
fn by_number(name: Name) -> String {
    match name {
        Name::Login(s) => format!("login {s}"),
        Name::Log(c) => format!("log {c}"),
    }
}

/// A name as one word of a command.
fn quoted(name: &str) -> String {
    if name.contains(' ') {
        format!("\"{name}\"")
    } else {
        String::from(name)
    }
}

/// Words with commas between, and `and` before the last.
pub fn listed(words: impl Iterator<Item = String>) -> String {
    let words: Vec<String> = words.collect();
    match words.split_last() {
        None => String::from("none"),
        Some((last, [])) => last.clone(),
        Some((last, before)) => format!("{} and {last}", before.join(", ")),
    }
}

/// A number with its noun, which has an s but for one.
pub fn counted(number: u64, noun: &str) -> String {
    let s = if number == 1 { "" } else { "s" };
    format!("{number} {noun}{s}")
}
