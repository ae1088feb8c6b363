//! The page of `ask`: the question, the answer, and a leak step by step with the cells that change.

use std::collections::BTreeSet;

use crate::html::grid::{Grid, legend};
use crate::html::{escape, page as whole};
use crate::input::Station;
use crate::leak::{Question, Step, notes, question, verdict};
use crate::record::{Name, Record};
use crate::sentence::numbers;

/// The most rows and columns that are drawn of every step; where more change in all, each step has its own.
const MOST_DRAWN: usize = 14;

/// The page of an answer.
pub fn page(q: &Question, station: &Station, leak: Option<&[Step]>) -> String {
    let steps = leak.unwrap_or(&[]);
    let mut body = answered(q, station, leak);
    let changed = Part::of(q, station, steps, true);
    let shared = Some(&changed).filter(|part| part.is_small());
    let named = Part::of(q, station, steps, false);
    body.push_str(&legend(
        changed.columns.len(),
        &station.record,
        &station.names,
    ));
    body.push_str("<p>The cell that is asked about has a violet frame.");
    if !steps.is_empty() {
        body.push_str(" What a command gives is framed green, what it takes is struck out.");
    }
    body.push_str("</p>\n<div class=\"step\"><h2>At the start</h2>\n");
    let first = shared.unwrap_or(&named);
    body.push_str(&first.grid(q, station, &station.record, None));
    body.push_str("</div>\n");
    let mut before = &station.record;
    for (at, step) in steps.iter().enumerate() {
        let own = Part::of(q, station, &steps[at..=at], true);
        let part = shared.unwrap_or(&own);
        body.push_str(&told(at + 1, step));
        body.push_str(&part.grid(q, station, &step.after, Some(before)));
        body.push_str("</div>\n");
        before = &step.after;
    }
    whole(&question(q, station), &body)
}

/// The answer, what is to be known of the question, and the record's file.
fn answered(q: &Question, station: &Station, leak: Option<&[Step]>) -> String {
    let class = if leak.is_some() { "leaks" } else { "safe" };
    let verdict = escape(&verdict(q, station, leak));
    let notes = notes(q, station).into_iter();
    let notes = notes.map(|note| format!("<p>Note: {}.</p>\n", escape(&note)));
    format!(
        "<div class=\"verdict {class}\">{verdict}.</div>\n{}<p>The record is {}.</p>\n",
        notes.collect::<String>(),
        escape(&station.file)
    )
}

/// A step in words, with its block left open.
fn told(number: usize, step: &Step) -> String {
    let effects = step.effects.iter();
    let effects = effects.map(|effect| format!("<li>{}</li>\n", escape(effect)));
    format!(
        "<div class=\"step\"><h2>{number}. {}<code>{}</code></h2>\n<p>Allowed, since {}. Then:</p>\n<ul>\n{}</ul>\n",
        escape(&step.words),
        numbers(step.command),
        escape(&step.allowed),
        effects.collect::<String>()
    )
}

/// The rows and columns that are drawn.
struct Part {
    rows: Vec<u64>,
    columns: Vec<Name>,
}

impl Part {
    /// Those of the question and of the commands of some steps, and where wanted those that the steps change. A small station is
    /// drawn whole.
    fn of(q: &Question, station: &Station, steps: &[Step], changed: bool) -> Part {
        let record = &station.record;
        let mut rows = BTreeSet::from([q.login]);
        let mut columns = BTreeSet::from([q.over]);
        for Step {
            command: c,
            changes,
            ..
        } in steps
        {
            let made_or_gone = changes.made.iter().chain(&changes.gone).copied();
            rows.extend([c.i, c.s]);
            columns.extend(made_or_gone.chain([record.name(c.o)]));
            if changed {
                rows.extend(changes.moved.iter().map(|moved| moved.login));
                columns.extend(changes.moved.iter().map(|moved| moved.over));
            }
        }
        let all = Part::whole(record);
        if all.is_small() {
            rows.extend(all.rows);
            columns.extend(all.columns);
        }
        Part {
            rows: rows.into_iter().collect(),
            columns: columns.into_iter().collect(),
        }
    }

    /// All that exists.
    fn whole(record: &Record) -> Part {
        Part {
            rows: record.existing_logins(),
            columns: record.existing(),
        }
    }

    fn is_small(&self) -> bool {
        self.rows.len() <= MOST_DRAWN && self.columns.len() <= MOST_DRAWN
    }

    fn grid(
        &self,
        q: &Question,
        station: &Station,
        after: &Record,
        before: Option<&Record>,
    ) -> String {
        let grid = Grid {
            record: after,
            names: &station.names,
            rows: self.rows.clone(),
            columns: self.columns.clone(),
            trusted: q.trust,
            before,
            asked: Some((q.login, q.column)),
        };
        grid.html()
    }
}
