//! `new FILE LOGINS LOGS`: a station in which U alone exists, of version 1 unless another is given.

use crate::answer::Answer;
use crate::history::make::make;
use crate::library::{MOST_PLAIN, MOST_SUBJECTS, new_record};
use crate::names::counted;
use crate::no_answer::{Answered, NoAnswer, no_answer, shown};
use crate::spoken::number;
use crate::version::Version;
use crate::words::Given;

pub fn new(given: &Given) -> Answered<Answer> {
    let (logins, logs) = (size(given, 1)?, size(given, 2)?);
    let version = match &given.version {
        None => Version::One,
        Some(word) => Version::parse(&shown(word))?,
    };
    let record = new_record(logins, logs);
    let bytes = record.and_then(|record| version.convert(&record));
    let bytes = bytes.map_err(|refusal| {
        let number = refusal.number();
        NoAnswer(format!(
            "a station has 1 to {MOST_SUBJECTS} logins and 0 to {MOST_PLAIN} logs, and not {logins} and {logs} (refusal {number})"
        ))
    })?;
    let file = &given.words[0];
    if file == "-" {
        return Ok(Answer::bytes(bytes));
    }
    make(file, &bytes, "new")?;
    let of = match version {
        Version::One => "of",
        Version::Two => "of version 2 with",
    };
    let text = format!(
        "{} is a station {of} {} and {}, in which login 0 (U) alone exists.\n",
        shown(file),
        counted(logins, "login"),
        counted(logs, "log")
    );
    Ok(Answer::new(text, true))
}

/// A number of names.
fn size(given: &Given, at: usize) -> Answered<u64> {
    let text = given.text(at)?;
    match number(text)? {
        Some(number) => Ok(number),
        None => no_answer(format!("LOGINS and LOGS are numbers, and '{text}' is none")),
    }
}
