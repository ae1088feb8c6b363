//! `log FILE`: what was done to a record, when, and who began it. `log FILE --at N OUT` makes a file of the record as it stood before
//! change N.

use std::fmt::Write;

use crate::answer::{Answer, MOST_LINES};
use crate::history::entries::{Entries, Next, Rest};
use crate::history::file::from_start;
use crate::history::kept::{damage, told_rest};
use crate::history::layout::{Entry, Run, What};
use crate::history::make::make;
use crate::history::past::{before, change_number};
use crate::history::replay::{NoStart, Replay};
use crate::history::seen::Seen;
use crate::history::time;
use crate::input::{called, names_of, opened};
use crate::json;
use crate::library::{Command, Refusal};
use crate::names::{Names, counted};
use crate::no_answer::Answered;
use crate::record::{Name, Record, sizes};
use crate::sentence::{numbers, sentence};
use crate::words::Given;

pub fn log(given: &Given) -> Answered<Answer> {
    match &given.at {
        None => whole(given),
        Some(change) => past(given, change_number(change)?),
    }
}

/// Makes a file of the record as it stood before a change.
fn past(given: &Given, change: u64) -> Answered<Answer> {
    let (path, out) = (&given.words[0], &given.words[1]);
    let record = before(path, change)?;
    if out == "-" {
        return Ok(Answer::bytes(record.bytes));
    }
    make(out, &record.bytes, "log")?;
    let text = format!(
        "{} is the record of {} as it stood before change {change}.\n",
        called(out),
        called(path)
    );
    Ok(Answer::new(text, true))
}

/// All the changes.
fn whole(given: &Given) -> Answered<Answer> {
    let path = &given.words[0];
    let seen = Seen::read(path)?;
    let name = &seen.history.name;
    let replay = match seen.replay(u64::MAX, None)? {
        Ok(replay) => replay,
        Err(NoStart(why)) => {
            let why = format!("{name} is damaged {}", damage(0, 0, why));
            let text = if given.json {
                in_json("null", "", Some(&why))
            } else {
                format!("{why}.\n")
            };
            return Ok(Answer::new(text, false));
        }
    };
    let last = opened(path, replay.record.clone())?;
    let names = names_of(path, given.names.as_ref(), &[&last])?;
    let lines = lines(&seen, &replay, &names, given.json)?;
    let rest = told_rest(&replay, name);
    let text = if given.json {
        in_json(&replay.since.to_string(), &lines, rest.as_deref())
    } else {
        lines + &rest.map_or(String::new(), |rest| format!("{rest}.\n"))
    };
    Ok(Answer::new(text, !matches!(replay.rest, Rest::Damaged(_))))
}

fn in_json(since: &str, changes: &str, rest: Option<&str>) -> String {
    let answer = json::object(&[
        ("since", String::from(since)),
        ("changes", format!("[{changes}]")),
        ("rest", rest.map_or(String::from("null"), json::text)),
    ]);
    format!("{answer}\n")
}

/// The changes that were replayed, in words or as JSON.
fn lines(seen: &Seen, replay: &Replay, names: &Names, as_json: bool) -> Answered<String> {
    let failed = |error| seen.history.not_read(&error);
    let from = from_start(&seen.file, replay.end).map_err(failed)?;
    let mut entries = Entries::new(from);
    let mut text = String::new();
    // The record that says which columns are logins, and which rights there are.
    let mut shape = None;
    let mut number = 0;
    while let Next::Entry(Entry { time, what }) = entries.next().map_err(failed)? {
        if let What::Start(record) | What::Adopted(record) = what {
            shape = Record::shaped(record).ok();
        }
        let Some(record) = &shape else { break };
        let told = Told {
            number,
            time,
            record,
            names,
        };
        match (as_json, what) {
            (true, _) if number == 0 => {}
            (false, what) if number == 0 => {
                let (name, changes) = (&seen.history.name, counted(replay.changes, "change"));
                let _ = writeln!(text, "{name}: {changes} {}.", told.start(&what));
            }
            (false, what) => told.in_words(&mut text, &what),
            (true, what) => {
                let comma = if text.is_empty() { "" } else { "," };
                text = text + comma + &told.in_json(&what);
            }
        }
        number += 1;
    }
    Ok(text)
}

/// A change that is told: its number, its time, and the record and the names by which its commands are put in words.
struct Told<'a> {
    number: u64,
    time: u64,
    record: &'a Record,
    names: &'a Names,
}

impl Told<'_> {
    /// Since when there is a history, and with what it begins.
    fn start(&self, what: &What) -> String {
        let (since, sizes) = (time::told(self.time), sizes(self.record));
        let adopted = match what {
            What::Adopted(_) => "was adopted after the history before was damaged, and ",
            _ => "",
        };
        format!("since {since}, when the record {adopted}had {sizes}")
    }

    fn in_words(&self, text: &mut String, what: &What) {
        let (number, time) = (self.number, time::told(self.time));
        let _ = match what {
            What::Run(run) => {
                let told = self.outcome(run);
                let _ = writeln!(text, "{number}. {time}: {told}");
                self.accepted(text, run)
            }
            _ => writeln!(
                text,
                "{number}. {time}: a record changed from outside was adopted"
            ),
        };
    }

    /// How many commands were accepted, who began them, and which was refused.
    fn outcome(&self, run: &Run) -> String {
        let all = run.count();
        let begun = self.names.logins(&initiators(run));
        match run.refusal {
            None => format!(
                "{} accepted, begun by {begun}",
                counted(all as u64, "command")
            ),
            Some(refusal) => {
                let (accepted, number) = (run.accepted, refusal.number());
                let place = accepted + 1;
                let refused = run.commands().nth(accepted).map(|c| self.words(c));
                let refused = refused.unwrap_or_default();
                format!(
                    "{accepted} of {all} commands accepted, begun by {begun}; command {place}, {refused}, is refused by {number}"
                )
            }
        }
    }

    /// The accepted commands in words, each on a line.
    fn accepted(&self, text: &mut String, run: &Run) -> std::fmt::Result {
        let most = MOST_LINES;
        for c in run.commands().take(run.accepted.min(most)) {
            writeln!(text, "     {}", self.words(c))?;
        }
        if run.accepted > most {
            writeln!(text, "     and {} more", run.accepted - most)?;
        }
        Ok(())
    }

    fn words(&self, c: Command) -> String {
        let words = sentence(c, self.record, self.names);
        words.unwrap_or_else(|| format!("[{}]", numbers(c)))
    }

    fn in_json(&self, what: &What) -> String {
        let mut fields = vec![
            ("change", self.number.to_string()),
            ("time", self.time.to_string()),
            ("adopted", matches!(what, What::Adopted(_)).to_string()),
        ];
        if let What::Run(run) = what {
            let begun = initiators(run).into_iter();
            let begun = begun.map(|s| json::name(Name::Login(s), self.names));
            let commands = run.commands().map(|c| json::command(c, &self.words(c)));
            fields.extend([
                ("accepted", run.accepted.to_string()),
                (
                    "refusal",
                    run.refusal.map_or(0, Refusal::number).to_string(),
                ),
                ("begun_by", json::array(begun)),
                ("commands", json::array(commands)),
            ]);
        }
        json::object(&fields)
    }
}

/// Who began the commands that were tried, each once.
fn initiators(run: &Run) -> Vec<u64> {
    let tried = run.accepted + usize::from(run.refusal.is_some());
    let mut initiators = Vec::new();
    for c in run.commands().take(tried) {
        if !initiators.contains(&c.i) {
            initiators.push(c.i);
        }
    }
    initiators
}
