//! The answer to a safety question, with each command of a leak explained.

use crate::changes::{Changes, changes, told, told_name};
use crate::held_by::{self, held_by};
use crate::input::Station;
use crate::library::{Command, Refusal, Right, command, witness};
use crate::names::{Names, counted};
use crate::record::{Name, Record};
use crate::sentence::{numbers, sentence};
use crate::why::{allowed, impossible};

/// The question.
#[derive(Clone, Copy)]
pub struct Question {
    pub trust: u64,
    pub login: u64,
    pub over: Name,
    pub column: u64,
    pub right: Right,
}

/// A command of a leak: in words, what allows it, what it does, what it changes, and the record after it.
pub struct Step {
    pub command: Command,
    pub words: String,
    pub allowed: String,
    pub effects: Vec<String>,
    pub changes: Changes,
    pub after: Record,
}

/// The commands that get there, each explained; none where it is safe.
pub fn answer(station: &Station, q: &Question) -> Result<Option<Vec<Step>>, Refusal> {
    let Station { record, names, .. } = station;
    let Some(list) = witness(&record.bytes, q.trust, q.login, q.column, q.right)? else {
        return Ok(None);
    };
    let mut before = record.clone();
    let mut steps = Vec::new();
    for c in list {
        let mut after = before.clone();
        command(&mut after.bytes, c).expect("each command of a leak is accepted");
        let changes = changes(&before, &after);
        steps.push(Step {
            command: c,
            words: sentence(c, &before, names).unwrap_or_else(|| numbers(c)),
            allowed: allowed(c, &before, names),
            effects: effects(&changes, names),
            changes,
            after: after.clone(),
        });
        before = after;
    }
    if let Some(last) = steps.last_mut() {
        last.effects.extend(reached(q, &last.after, names));
    }
    Ok(Some(steps))
}

/// How the right is held after a leak, where that is not by its own bit, which the last command sets.
fn reached(q: &Question, after: &Record, names: &Names) -> Option<String> {
    let by = held_by(after, q.login, q.column, q.right)?;
    let (login, right) = (names.login(q.login), names.right(q.right));
    let (over, by) = (names.name(q.over), held_by::told(Some(by), names));
    Some(format!("so {login} holds {right} over {over}{by}"))
}

/// The question in words.
pub fn question(q: &Question, station: &Station) -> String {
    let Station { record, names, .. } = station;
    let logins = 0..record.logins();
    let (trusted, others): (Vec<u64>, Vec<u64>) = logins.partition(|s| q.trust >> s & 1 == 1);
    let trust = match (trusted.as_slice(), others.as_slice()) {
        ([], _) => String::from("nobody is trusted"),
        (_, []) => String::from("every login is trusted to begin nothing"),
        ([one], _) => format!("{} is trusted to begin nothing", names.login(*one)),
        (many, few) if many.len() > 8 && few.len() <= 8 => {
            let few = names.logins(few);
            format!("every login but {few} is trusted to begin nothing")
        }
        (some, _) => format!("{} are trusted to begin nothing", names.logins(some)),
    };
    format!(
        "Can {} ever come to hold {} over {}, if {trust}?",
        names.login(q.login),
        names.right(q.right),
        names.name(q.over)
    )
}

/// The answer as one sentence, without its full stop.
pub fn verdict(q: &Question, station: &Station, leak: Option<&[Step]>) -> String {
    match leak {
        None => {
            String::from("SAFE. No list of commands by the other logins, of any length, gets there")
        }
        Some([]) => {
            let Station { record, names, .. } = station;
            let by = held_by(record, q.login, q.column, q.right);
            format!(
                "LEAKS. {} holds it already{}",
                names.login(q.login),
                held_by::told(by, names)
            )
        }
        Some(steps) => {
            let count = steps.len() as u64;
            let verb = if count == 1 { "gets" } else { "get" };
            let commands = counted(count, "command");
            format!("LEAKS. {commands} {verb} there, and no trusted login begins any")
        }
    }
}

/// The logins of a mask, also those that no record has.
pub fn members(mask: u64) -> Vec<u64> {
    let bits = 0..u64::from(u64::BITS);
    bits.filter(|s| mask >> s & 1 == 1).collect()
}

/// What a reader of the answer has to know of the question: absent names, a right that is impossible, who is trusted.
pub fn notes(q: &Question, station: &Station) -> Vec<String> {
    let Station { record, names, .. } = station;
    let mut notes = Vec::new();
    let asked = [Name::Login(q.login), q.over];
    let asked = if asked[0] == asked[1] {
        &asked[..1]
    } else {
        &asked[..]
    };
    for name in asked.iter().filter(|name| !record.exists(**name)) {
        notes.push(format!(
            "{} does not exist in the record",
            names.name(*name)
        ));
    }
    notes.extend(impossible(q.login, q.over, q.right, names));
    notes.extend(trust_notes(q, station));
    notes
}

/// What is to be known of who is trusted.
fn trust_notes(q: &Question, station: &Station) -> Vec<String> {
    let Station { record, names, .. } = station;
    let mut notes = Vec::new();
    let trusted = members(q.trust).into_iter();
    let (there, absent): (Vec<u64>, Vec<u64>) =
        trusted.partition(|s| record.exists(Name::Login(*s)));
    if there == record.existing_logins() {
        notes.push(String::from(
            "every login that exists is trusted, so nobody is left to begin a command",
        ));
    }
    if there.is_empty() {
        notes.push(String::from(
            "no login that exists is trusted, so everybody may begin commands",
        ));
    }
    let who = names.logins(&absent);
    match absent.len() {
        0 => {}
        1 => notes.push(format!(
            "{who} does not exist, and stays trusted if created"
        )),
        _ => notes.push(format!("{who} do not exist, and stay trusted if created")),
    }
    notes
}

/// What a command changes, as parts of a sentence. What goes with a destroyed name is left out.
fn effects(changes: &Changes, names: &Names) -> Vec<String> {
    let mut effects = Vec::new();
    for (list, made) in [(&changes.gone, false), (&changes.made, true)] {
        effects.extend(list.iter().map(|name| told_name(*name, made, names)));
    }
    let stays = |name: Name| !changes.gone.contains(&name);
    for login in Changes::LOGINS.filter(|s| stays(Name::Login(*s))) {
        for gained in [false, true] {
            let mut moved = changes.of_login(login, gained);
            moved.retain(|m| stays(m.over));
            let parts = told(&moved, names).into_iter();
            effects.extend(parts.map(|part| format!("{} {part}", names.login(login))));
        }
    }
    if effects.is_empty() {
        effects.push(String::from("nothing changes"));
    }
    effects
}
