//! `diff OLD NEW`: every right gained and lost and every name made or gone, grouped by login. Each is the record of a file, or of its past.

use crate::answer::Answer;
use crate::changes::{Changes, by_login, changes};
use crate::history::past::Side;
use crate::input::{Station, beside, names_of};
use crate::json;
use crate::names::{Names, counted};
use crate::no_answer::{Answered, no_answer};
use crate::record::{Name, Record};
use crate::words::Given;

pub fn diff(given: &Given) -> Answered<Answer> {
    let (old, new) = (&given.words[0], &given.words[1]);
    if old == "-" && new == "-" {
        return no_answer("OLD and NEW can't both be the standard input");
    }
    let (old, new) = (Side::read(old)?, Side::read(new)?);
    let station = named(given, &old, new)?;
    let old_record = old.record;
    let changes = changes(&old_record, &station.record);
    let resized = sizes(&old_record) != sizes(&station.record);
    let same = changes.is_empty() && !resized;
    let text = if given.json {
        in_json(&old_record, &station, &changes, !same)
    } else {
        let differences = if same {
            String::from("No difference.\n")
        } else {
            resize_text(&old_record, &station.record) + &by_login(&changes, &station.names)
        };
        version_text(&old_record, &station.record) + &differences
    };
    Ok(Answer::new(text, same))
}

/// The new record with the names given, or those beside it, or those beside the old one. Names beside a record are read for it, those
/// given for both.
fn named(given: &Given, old: &Side, new: Side) -> Answered<Station> {
    let names = if given.names.is_some() {
        names_of(&new.path, given.names.as_ref(), &[&old.record, &new.record])?
    } else if beside(&new.path).is_some() {
        names_of(&new.path, None, &[&new.record])?
    } else {
        names_of(&old.path, None, &[&old.record])?
    };
    Ok(Station {
        file: crate::input::called(&new.path),
        record: new.record,
        names,
    })
}

fn sizes(record: &Record) -> (u64, u64) {
    (record.logins(), record.logs())
}

/// That the two have different versions, if they have. That is no difference of what anybody may do.
fn version_text(old: &Record, new: &Record) -> String {
    match (old.version(), new.version()) {
        (old, new) if old == new => String::new(),
        (old, new) => format!(
            "The old record is of version {old}, the new one of version {new}; their rights are compared.\n"
        ),
    }
}

/// That the two have different sizes, if they have.
fn resize_text(old: &Record, new: &Record) -> String {
    if sizes(old) == sizes(new) {
        return String::new();
    }
    let size = |r: &Record| {
        format!(
            "{} and {}",
            counted(r.logins(), "login"),
            counted(r.logs(), "log")
        )
    };
    format!(
        "The old record has {}, the new one {}; logs are compared by column.\n",
        size(old),
        size(new)
    )
}

fn in_json(old: &Record, new: &Station, changes: &Changes, differs: bool) -> String {
    let names = &new.names;
    let size = |r: &Record| {
        json::object(&[
            ("version", r.version().to_string()),
            ("logins", r.logins().to_string()),
            ("logs", r.logs().to_string()),
        ])
    };
    let listed = |list: &[Name]| json::array(list.iter().map(|name| json::name(*name, names)));
    let answer = json::object(&[
        ("differs", differs.to_string()),
        ("old", size(old)),
        ("new", size(&new.record)),
        ("made", listed(&changes.made)),
        ("gone", listed(&changes.gone)),
        ("gained", moves(changes, true, names)),
        ("lost", moves(changes, false, names)),
    ]);
    format!("{answer}\n")
}

/// The rights that are gained, or those that are lost, as JSON.
pub fn moves(changes: &Changes, gained: bool, names: &Names) -> String {
    let moves = changes.moved.iter().filter(|m| m.gained == gained);
    json::array(moves.map(|m| {
        json::object(&[
            ("login", json::name(Name::Login(m.login), names)),
            ("over", json::name(m.over, names)),
            ("right", json::right(m.right, names)),
            ("held", (gained || m.still_by.is_some()).to_string()),
        ])
    }))
}
