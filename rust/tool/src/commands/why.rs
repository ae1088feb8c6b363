//! `why FILE LOGIN COLUMN RIGHT`: since which command a login holds a right, who began it, and when.

use crate::answer::Answer;
use crate::commands::held::{absent, beyond};
use crate::held_by::{self, held_by};
use crate::history::entries::Rest;
use crate::history::kept::{Standing, damage};
use crate::history::origin::{Asked, Origin};
use crate::history::replay::NoStart;
use crate::history::seen::Seen;
use crate::history::time;
use crate::input::{Station, called, names_of, opened};
use crate::json;
use crate::library::{Right, held};
use crate::no_answer::Answered;
use crate::record::{Name, column_of};
use crate::sentence::{in_full, numbers, sentence};
use crate::spoken;
use crate::words::Given;

pub fn why(given: &Given) -> Answered<Answer> {
    let path = &given.words[0];
    let seen = Seen::read(path)?;
    let record = opened(path, seen.record.clone())?;
    let names = names_of(path, given.names.as_ref(), &[&record])?;
    let station = Station {
        file: called(path),
        record,
        names,
    };
    let asked = asked(given, &station)?;
    let column = column_of(asked.over);
    let is_held = held(&station.record.bytes, asked.login, column, asked.right)
        .map_err(|refusal| beyond(refusal, &station, &[asked.login], column))?;
    let found = found(&seen, is_held.then_some(asked))?;
    let given_by_command = matches!(found.origin, Some(Origin::Start | Origin::Command { .. }));
    let answer = Why {
        station,
        asked,
        is_held,
        history: seen.history.name.clone(),
        found,
    };
    let text = if given.json {
        answer.in_json()
    } else {
        answer.in_words()
    };
    Ok(Answer::new(text, is_held && given_by_command))
}

/// The words of the question.
fn asked(given: &Given, station: &Station) -> Answered<Asked> {
    let Station { record, names, .. } = station;
    let login = spoken::login(given.text(1)?, names)?;
    let column = spoken::column(given.text(2)?, record, names)?;
    let right = spoken::right(given.text(3)?, record, names)?;
    let over = record.name(column);
    Ok(Asked { login, over, right })
}

/// What the history says of a right.
struct Found {
    origin: Option<Origin>,
    /// When the history was begun.
    since: u64,
    /// What is to be known besides: the record differs, or the history is damaged.
    notes: Vec<String>,
}

/// Replays the history, and searches it for the right where one is asked for.
fn found(seen: &Seen, asked: Option<Asked>) -> Answered<Found> {
    let name = &seen.history.name;
    let replay = match seen.replay(u64::MAX, asked)? {
        Ok(replay) => replay,
        Err(NoStart(why)) => {
            return Ok(Found {
                origin: None,
                since: 0,
                notes: vec![format!("{name} is damaged {}", damage(0, 0, why))],
            });
        }
    };
    let standing = replay.standing(&seen.record);
    let [after, before] = replay.origins;
    let mut notes = Vec::new();
    if let Rest::Damaged(why) = replay.rest {
        let damage = damage(replay.changes + 1, replay.end, why);
        notes.push(format!("{name} is damaged {damage}"));
    }
    if standing == Standing::Differs {
        notes.push(format!("the record is not what {name} makes of it"));
    }
    Ok(Found {
        origin: match standing {
            Standing::Unfinished => before,
            _ => after,
        },
        since: replay.since,
        notes,
    })
}

/// The answer.
struct Why {
    station: Station,
    asked: Asked,
    is_held: bool,
    history: String,
    found: Found,
}

impl Why {
    fn in_words(&self) -> String {
        let Station { record, names, .. } = &self.station;
        let Asked { login, over, right } = self.asked;
        let verb = if self.is_held {
            "holds"
        } else {
            "does not hold"
        };
        let by = held_by::told(held_by(record, login, column_of(over), right), names);
        let mut text = format!(
            "{} {verb} {} over {}{by}.\n",
            names.login(login),
            names.right(right),
            names.name(over)
        );
        text.push_str(&absent(&self.station, &[Name::Login(login), over]));
        if self.is_held {
            text.push_str(&self.origin());
        }
        for note in &self.found.notes {
            text.push_str(&format!("Note: {note}.\n"));
        }
        text
    }

    /// Where a right that is held comes from.
    fn origin(&self) -> String {
        let Station { record, names, .. } = &self.station;
        match self.found.origin {
            Some(Origin::Start) => {
                let (history, since) = (&self.history, time::told(self.found.since));
                format!("So it was when {history} was begun, {since}.\n")
            }
            Some(Origin::Command { place, command }) => {
                let (who, time) = (names.login(command.i), time::told(place.time));
                format!(
                    "So it is since change {}, {time}, by command {}, which {who} began:\n  {}\n",
                    place.change,
                    place.number,
                    in_full(command, record, names)
                )
            }
            Some(Origin::Adopted { change: 0, time }) => format!(
                "No recorded command gave it: it came in with the record that was adopted as the start of {}, {}, since the history before was damaged.\n",
                self.history,
                time::told(time)
            ),
            Some(Origin::Adopted { change, time }) => format!(
                "No recorded command gave it: it came in by change {change}, {}, which adopted a record changed from outside.\n",
                time::told(time)
            ),
            None => String::from("No recorded command gave it.\n"),
        }
    }

    fn in_json(&self) -> String {
        let Station { record, names, .. } = &self.station;
        let Asked { login, over, right } = self.asked;
        let by = held_by(record, login, column_of(over), right);
        let by = by.map_or(String::from("null"), |by: Right| json::right(by, names));
        let notes = self.found.notes.iter().map(|note| json::text(note));
        let mut fields = vec![
            ("login", json::name(Name::Login(login), names)),
            ("over", json::name(over, names)),
            ("right", json::right(right, names)),
            ("held", self.is_held.to_string()),
            ("by", by),
        ];
        fields.extend(self.origin_in_json());
        fields.push(("notes", json::array(notes)));
        format!("{}\n", json::object(&fields))
    }

    fn origin_in_json(&self) -> [(&'static str, String); 5] {
        let Station { record, names, .. } = &self.station;
        let (origin, at, command) = match self.found.origin.filter(|_| self.is_held) {
            None => ("none", None, None),
            Some(Origin::Start) => ("start", None, None),
            Some(Origin::Adopted { change, time }) => ("adopted", Some((change, time)), None),
            Some(Origin::Command { place, command }) => {
                let words = sentence(command, record, names);
                let words = words.unwrap_or_else(|| numbers(command));
                let told = (place.number, json::command(command, &words));
                ("command", Some((place.change, place.time)), Some(told))
            }
        };
        let or_null = |value: Option<String>| value.unwrap_or_else(|| String::from("null"));
        let (change, time) = at.unzip();
        let (number, command) = command.unzip();
        [
            ("origin", json::text(origin)),
            ("change", or_null(change.map(|change| change.to_string()))),
            ("time", or_null(time.map(|time| time.to_string()))),
            ("number", or_null(number.map(|number| number.to_string()))),
            ("command", or_null(command)),
        ]
    }
}
