//! `held FILE LOGIN COLUMN RIGHT` and `who FILE COLUMN RIGHT`: whether a login holds a right, and all who do.

use crate::answer::Answer;
use crate::held_by::{self, held_by};
use crate::input::{Station, station};
use crate::json;
use crate::library::{self, Refusal};
use crate::no_answer::{Answered, NoAnswer};
use crate::record::Name;
use crate::spoken;
use crate::words::Given;

pub fn held(given: &Given) -> Answered<Answer> {
    let station = station(&given.words[0], given.names.as_ref())?;
    let Station { record, names, .. } = &station;
    let login = spoken::login(given.text(1)?, names)?;
    let column = spoken::column(given.text(2)?, record, names)?;
    let right = spoken::right(given.text(3)?, record, names)?;
    let held = library::held(&record.bytes, login, column, right)
        .map_err(|refusal| beyond(refusal, &station, &[login], column))?;
    let (who, over) = (Name::Login(login), record.name(column));
    if given.json {
        let answer = json::object(&[
            ("login", json::name(who, names)),
            ("over", json::name(over, names)),
            ("right", json::right(right, names)),
            ("held", held.to_string()),
        ]);
        return Ok(Answer::new(format!("{answer}\n"), held));
    }
    let verb = if held { "holds" } else { "does not hold" };
    let by = held_by::told(held_by(record, login, column, right), names);
    let mut text = format!(
        "{} {verb} {} over {}{by}.\n",
        names.name(who),
        names.right(right),
        names.name(over)
    );
    text.push_str(&absent(&station, &[who, over]));
    Ok(Answer::new(text, held))
}

pub fn who(given: &Given) -> Answered<Answer> {
    let station = station(&given.words[0], given.names.as_ref())?;
    let Station { record, names, .. } = &station;
    let column = spoken::column(given.text(1)?, record, names)?;
    let right = spoken::right(given.text(2)?, record, names)?;
    let mut holders = Vec::new();
    for login in 0..record.logins() {
        let held = library::held(&record.bytes, login, column, right);
        if held.map_err(|refusal| beyond(refusal, &station, &[], column))? {
            holders.push(login);
        }
    }
    let over = record.name(column);
    let (over_words, right) = (names.name(over), names.right(right));
    if holders.is_empty() {
        let text = format!(
            "Nobody holds {right} over {over_words}.\n{}",
            absent(&station, &[over])
        );
        return Ok(Answer::new(text, false));
    }
    let lines = holders
        .iter()
        .map(|s| format!("{}\n", names.label(Name::Login(*s))));
    Ok(Answer::new(lines.collect(), true))
}

/// A sentence for each name that does not exist.
pub fn absent(station: &Station, names: &[Name]) -> String {
    let mut seen: Vec<Name> = Vec::new();
    let mut text = String::new();
    for name in names {
        if !station.record.exists(*name) && !seen.contains(name) {
            text.push_str(&format!("{} does not exist.\n", station.names.name(*name)));
            seen.push(*name);
        }
    }
    text
}

/// Which number of a question is beyond the record: the refusal 7 in words.
pub fn beyond(refusal: Refusal, station: &Station, logins: &[u64], column: u64) -> NoAnswer {
    let record = &station.record;
    let (n, columns) = (record.logins(), record.columns());
    let why = match logins.iter().find(|s| **s >= n) {
        Some(s) => format!(
            "login {s} is beyond the record, which has logins 0 to {}",
            n - 1
        ),
        None if column >= columns => {
            format!(
                "column {column} is beyond the record, which has columns 0 to {}",
                columns - 1
            )
        }
        None => String::from(refusal.words()),
    };
    NoAnswer(format!("{why} (refusal {})", refusal.number()))
}
