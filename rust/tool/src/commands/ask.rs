//! `ask FILE TRUSTED LOGIN COLUMN RIGHT`: the safety question.

use crate::answer::Answer;
use crate::commands::held::beyond;
use crate::html;
use crate::input::{Station, station};
use crate::json;
use crate::leak::{Question, Step, answer, members, notes, question, verdict};
use crate::no_answer::Answered;
use crate::record::Name;
use crate::sentence::numbers;
use crate::spoken;
use crate::words::Given;

pub fn ask(given: &Given) -> Answered<Answer> {
    let station = station(&given.words[0], given.names.as_ref())?;
    let q = asked(given, &station)?;
    let leak = answer(&station, &q).map_err(|refusal| {
        let logins: Vec<u64> = members(q.trust).into_iter().chain([q.login]).collect();
        beyond(refusal, &station, &logins, q.column)
    })?;
    let leak = leak.as_deref();
    let safe = leak.is_none();
    let text = if given.json {
        in_json(&q, &station, leak)
    } else {
        text(&q, &station, leak)
    };
    match &given.html {
        None => Ok(Answer::new(text, safe)),
        Some(out) => html::deliver(out, html::leak::page(&q, &station, leak), text, safe),
    }
}

/// The words of the question as numbers.
fn asked(given: &Given, station: &Station) -> Answered<Question> {
    let Station { record, names, .. } = station;
    let trust = spoken::trusted(given.text(1)?, record, names)?;
    let login = spoken::login(given.text(2)?, names)?;
    let column = spoken::column(given.text(3)?, record, names)?;
    let right = spoken::right(given.text(4)?, record, names)?;
    Ok(Question {
        trust,
        login,
        over: record.name(column),
        column,
        right,
    })
}

fn text(q: &Question, station: &Station, leak: Option<&[Step]>) -> String {
    let mut text = format!("{}\n", question(q, station));
    for note in notes(q, station) {
        text.push_str(&format!("Note: {note}.\n"));
    }
    let steps = leak.unwrap_or(&[]);
    let end = if steps.is_empty() {
        "."
    } else {
        " [code i s o k]:"
    };
    text.push_str(&format!("{}{end}\n", verdict(q, station, leak)));
    for (at, step) in steps.iter().enumerate() {
        let (words, five) = (&step.words, numbers(step.command));
        text.push_str(&format!("  {:2}. {words}   [{five}]\n", at + 1));
        text.push_str(&format!("      allowed: {}\n", step.allowed));
        let effects = step.effects.join("; ");
        text.push_str(&format!("      then: {effects}\n"));
    }
    text
}

fn in_json(q: &Question, station: &Station, leak: Option<&[Step]>) -> String {
    let names = &station.names;
    let trusted = members(q.trust).into_iter();
    let trusted = trusted.map(|s| json::name(Name::Login(s), names));
    let commands = leak.unwrap_or(&[]).iter().map(|step| {
        let mut fields = json::command_fields(step.command, &step.words).to_vec();
        let effects = step.effects.iter().map(|effect| json::text(effect));
        fields.push(("allowed", json::text(&step.allowed)));
        fields.push(("then", json::array(effects)));
        json::object(&fields)
    });
    let answer = json::object(&[
        ("trusted", json::array(trusted)),
        ("login", json::name(Name::Login(q.login), names)),
        ("over", json::name(q.over, names)),
        ("right", json::right(q.right, names)),
        (
            "notes",
            json::array(notes(q, station).iter().map(|note| json::text(note))),
        ),
        ("safe", leak.is_none().to_string()),
        ("commands", json::array(commands)),
    ]);
    format!("{answer}\n")
}
