//! `show FILE`: the matrix as a table, and who owns whom as a tree.

use std::env;

use crate::answer::Answer;
use crate::html;
use crate::input::{Station, station};
use crate::no_answer::Answered;
use crate::record::sizes;
use crate::table::{between, table};
use crate::tree::tree;
use crate::words::Given;

/// The width of a terminal that does not say its own.
const WIDTH: usize = 80;

pub fn show(given: &Given) -> Answered<Answer> {
    let station = station(&given.words[0], given.names.as_ref())?;
    let text = text(&station);
    match &given.html {
        None => Ok(Answer::new(text, true)),
        Some(out) => html::deliver(out, html::matrix::page(&station), text, true),
    }
}

/// The width that COLUMNS gives.
fn width() -> usize {
    let columns = env::var("COLUMNS")
        .ok()
        .and_then(|columns| columns.parse().ok());
    columns.filter(|columns| *columns >= 40).unwrap_or(WIDTH)
}

fn text(station: &Station) -> String {
    let Station {
        file,
        record,
        names,
    } = station;
    let width = width();
    let (last, last_basic) = (record.logins() - 1, record.basics() - 1);
    let (_, commas) = between(record);
    let logs = match record.logs() {
        0 => String::new(),
        _ => format!(", then logs from column {}", last + 1),
    };
    let rights = names
        .of_rights
        .iter()
        .map(|(k, name)| format!(";\n{} is {name}", k.number()));
    format!(
        "{file}: {}.\n\n{}\n\
         Rows are logins; columns are logins 0 to {last}{logs}.\n\
         What does not exist is left out, and rows that have nothing in a block.\n\
         o is own, c control, 0 to {last_basic} the basic rights, * with the star{commas}{}.\n\n\
         Who owns whom:\n{}",
        sizes(record),
        table(record, names, width),
        rights.collect::<String>(),
        tree(record, names, width)
    )
}
