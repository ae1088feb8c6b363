//! The one sentence that is printed where there is no answer.

use std::ffi::OsStr;
use std::fmt;

/// Why there is no answer, as one sentence without its full stop.
#[derive(Debug, PartialEq, Eq)]
pub struct NoAnswer(pub String);

/// What a command gives: an answer, or the reason that there is none.
pub type Answered<T> = Result<T, NoAnswer>;

/// The reason that there is no answer.
pub fn no_answer<T>(why: impl Into<String>) -> Answered<T> {
    Err(NoAnswer(why.into()))
}

impl From<String> for NoAnswer {
    fn from(why: String) -> NoAnswer {
        NoAnswer(why)
    }
}

impl fmt::Display for NoAnswer {
    fn fmt(&self, f: &mut fmt::Formatter<'_>) -> fmt::Result {
        f.write_str(&one_line(&cut(&self.0)))
    }
}

/// The longest word that a sentence has whole, in characters.
const LONGEST: usize = 1_000;

/// A sentence with the middle of its longest words left out, so that a huge file without a space makes a sentence that can be read.
fn cut(text: &str) -> String {
    let short = |word: &str| {
        let length = word.chars().count();
        if length <= LONGEST {
            return String::from(word);
        }
        let first: String = word.chars().take(40).collect();
        let last: String = word.chars().skip(length - 3).collect();
        format!("{first}..{last}")
    };
    text.split_inclusive(' ').map(short).collect()
}

/// Text with its control characters made visible, so that it stays on one line and leaves a terminal as it is.
pub fn one_line(text: &str) -> String {
    let shown = |c: char| {
        if c.is_control() {
            c.escape_default().to_string()
        } else {
            c.to_string()
        }
    };
    text.chars().map(shown).collect()
}

/// A file's name, to be printed.
pub fn shown(path: impl AsRef<OsStr>) -> String {
    match path.as_ref().to_string_lossy() {
        empty if empty.is_empty() => String::from("''"),
        path => one_line(&path),
    }
}
