//! `audit FILE`: whether a record is what its history makes of it, and if not, every right that no recorded command gave and every one that
//! is missing.

use crate::answer::{Answer, first_lines};
use crate::changes::{Changes, changes};
use crate::commands::check;
use crate::commands::diff::moves;
use crate::faults::reasons;
use crate::history::entries::Rest;
use crate::history::kept::{Standing, damage, told_rest};
use crate::history::replay::{NoStart, Replay};
use crate::history::seen::Seen;
use crate::history::time;
use crate::input::{called, names_of, opened};
use crate::json;
use crate::library;
use crate::names::{Names, counted, listed};
use crate::no_answer::Answered;
use crate::record::{Name, Record, sizes};
use crate::words::Given;

pub fn audit(given: &Given) -> Answered<Answer> {
    let path = &given.words[0];
    let seen = Seen::read(path)?;
    let replay = match seen.replay(u64::MAX, None)? {
        Ok(replay) => replay,
        Err(NoStart(why)) => return Ok(without_start(given, &seen, why)),
    };
    let made = opened(path, replay.record.clone())?;
    let found = Record::open(&seen.record).ok();
    let records: Vec<&Record> = found.iter().chain([&made]).collect();
    let names = names_of(path, given.names.as_ref(), &records)?;
    let standing = replay.standing(&seen.record);
    let audited = Audited {
        file: called(path),
        history: &seen.history.name,
        agrees: standing != Standing::Differs && !matches!(replay.rest, Rest::Damaged(_)),
        standing,
        changes: found.as_ref().map(|found| changes(&made, found)),
        seen: &seen,
        replay: &replay,
        made,
        found,
        names,
    };
    let text = if given.json {
        audited.in_json()
    } else {
        audited.in_words()
    };
    Ok(Answer::new(text, audited.agrees))
}

/// The answer where nothing of the history can be used.
fn without_start(given: &Given, seen: &Seen, why: &str) -> Answer {
    let told = format!("{} is damaged {}", seen.history.name, damage(0, 0, why));
    let text = if given.json {
        let fields = [
            ("agrees", String::from("false")),
            ("rest", json::text(&told)),
        ];
        format!("{}\n", json::object(&fields))
    } else {
        format!("{told}.\n")
    };
    Answer::new(text, false)
}

/// A record beside what its history makes.
struct Audited<'a> {
    file: String,
    history: &'a str,
    agrees: bool,
    standing: Standing,
    seen: &'a Seen,
    replay: &'a Replay,
    made: Record,
    /// The record that is there, where it is valid, and what it has and lacks beside the one that the history makes.
    found: Option<Record>,
    changes: Option<Changes>,
    names: Names,
}

impl Audited<'_> {
    fn in_words(&self) -> String {
        let Audited { file, replay, .. } = self;
        let damaged = matches!(replay.rest, Rest::Damaged(_));
        let history = if damaged {
            format!("the undamaged part of {}", self.history)
        } else {
            String::from(self.history)
        };
        let is = match self.standing {
            Standing::Agrees => format!("is what {history} makes of it"),
            Standing::Unfinished => format!(
                "is what {history} makes of it but for change {}, which is being made, or was cut off and is finished by the next run",
                replay.changes
            ),
            Standing::Differs => format!("is not what {history} makes of it"),
        };
        let (number, accepted) = (replay.changes, counted(replay.accepted, "command"));
        let (changes, since) = (counted(number, "change"), time::told(replay.since));
        let mut text = format!("{file} {is}: {changes}, {accepted} accepted, since {since}.\n");
        text.push_str(&self.adoptions());
        let rest = told_rest(replay, self.history);
        text.extend(rest.map(|rest| format!("{rest}.\n")));
        if self.standing == Standing::Differs {
            text.push_str(&self.differences());
        }
        text
    }

    /// A line for each adoption, up to some.
    fn adoptions(&self) -> String {
        let adopted = self.replay.adopted.iter();
        let lines: Vec<String> = adopted
            .map(|(change, at)| {
                let time = time::told(*at);
                match change {
                    0 => format!("its start, {time}, is an adopted record, since the history before was damaged"),
                    _ => format!("change {change}, {time}, adopted a record changed from outside"),
                }
            })
            .collect();
        first_lines(&lines)
    }

    fn differences(&self) -> String {
        let bytes = &self.seen.record;
        match (&self.found, &self.changes) {
            (Some(found), Some(changes)) => {
                resized(&self.made, found) + &in_and_missing(changes, &self.names)
            }
            _ => {
                let refusal = library::check(bytes).err();
                let reasons = reasons(bytes, refusal, &self.names);
                refusal.map_or(String::new(), |refusal| {
                    check::text(&self.file, refusal, &reasons)
                })
            }
        }
    }

    fn in_json(&self) -> String {
        let replay = self.replay;
        let adopted = replay.adopted.iter().map(|(change, time)| {
            json::object(&[("change", change.to_string()), ("time", time.to_string())])
        });
        let refusal = library::check(&self.seen.record).err();
        let none = Changes::default();
        let changes = self.changes.as_ref().unwrap_or(&none);
        let changes = if self.standing == Standing::Differs {
            changes
        } else {
            &none
        };
        let rest = told_rest(replay, self.history);
        let unfinished = self.standing == Standing::Unfinished;
        let answer = json::object(&[
            ("agrees", self.agrees.to_string()),
            ("changes", replay.changes.to_string()),
            ("accepted", replay.accepted.to_string()),
            ("since", replay.since.to_string()),
            ("adopted", json::array(adopted)),
            ("unfinished", unfinished.to_string()),
            (
                "rest",
                rest.map_or(String::from("null"), |rest| json::text(&rest)),
            ),
            ("refusal", refusal.map_or(0, |r| r.number()).to_string()),
            ("not_given", moves(changes, true, &self.names)),
            ("missing", moves(changes, false, &self.names)),
        ]);
        format!("{answer}\n")
    }
}

/// That a record has another version or other sizes than the one that its history makes, if it has.
pub fn resized(made: &Record, found: &Record) -> String {
    let shape = |record: &Record| (record.version(), record.logins(), record.logs());
    if shape(made) == shape(found) {
        return String::new();
    }
    format!(
        "The history makes a record of {}; there is one of {}.\n",
        sizes(made),
        sizes(found)
    )
}

/// The rights of a record that no recorded command gave, and those that are missing.
pub fn in_and_missing(changes: &Changes, names: &Names) -> String {
    let mut text = String::new();
    for (gained, title) in [(true, "No recorded command gave:"), (false, "Missing:")] {
        let rights = rights(changes, gained, names);
        if !rights.is_empty() {
            text.push_str(&format!("{title}\n{rights}"));
        }
    }
    text
}

/// The rights that are gained, or those that are lost: a line for each login and right, with all that it is over.
fn rights(changes: &Changes, gained: bool, names: &Names) -> String {
    let mut text = String::new();
    for login in Changes::LOGINS {
        let moved = changes.of_login(login, gained);
        for right in library::Right::ALL {
            let over = moved.iter().filter(|m| m.right == right);
            let over: Vec<String> = over
                .map(|m| match m.over {
                    Name::Login(s) if s == login => String::from("itself"),
                    other => names.name(other),
                })
                .collect();
            if !over.is_empty() {
                let (who, right) = (names.login(login), names.right(right));
                let over = listed(over.into_iter());
                text.push_str(&format!("  {who}: {right} over {over}\n"));
            }
        }
    }
    text
}
