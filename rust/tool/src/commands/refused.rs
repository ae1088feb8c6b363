//! `refused WINDOW`: how many of the last 256 commands were refused, for each login that began some of them.

use std::cmp::Reverse;

use crate::answer::Answer;
use crate::input::{called, names_of};
use crate::json;
use crate::library::{WINDOW_ENTRIES, WINDOW_NUMBERS, Window};
use crate::names::Names;
use crate::no_answer::Answered;
use crate::record::Name;
use crate::window_file;
use crate::words::Given;

pub fn refused(given: &Given) -> Answered<Answer> {
    let path = &given.words[0];
    let window = window_file::read(path)?;
    let names = names_of(path, given.names.as_ref(), &[])?;
    let counts = counts(&window);
    let text = if given.json {
        let counts = counts.iter().map(ToString::to_string);
        format!("{}\n", json::object(&[("refused", json::array(counts))]))
    } else {
        text(&called(path), &counts, &names)
    };
    Ok(Answer::new(text, true))
}

/// The count of each login, in number order.
fn counts(window: &Window) -> Vec<u64> {
    let count = |login| window.count(login);
    let counts: Result<Vec<u64>, _> = (0..WINDOW_NUMBERS).map(count).collect();
    counts.expect("each of these numbers has a count")
}

/// A line for each login with a count, the highest first, and those with the same by number.
fn text(file: &str, counts: &[u64], names: &Names) -> String {
    let mut lines: Vec<(u64, u64)> = (0..).zip(counts.iter().copied()).collect();
    lines.retain(|(_, count)| *count > 0);
    lines.sort_by_key(|(login, count)| (Reverse(*count), *login));
    let Some((_, most)) = lines.first() else {
        return format!("None of the last {WINDOW_ENTRIES} commands in {file} was refused.\n");
    };
    let width = most.to_string().len();
    let mut text = format!(
        "Refused among the last {WINDOW_ENTRIES} commands in {file}, and who began them:\n"
    );
    for (login, count) in &lines {
        let label = names.label(Name::Login(*login));
        text.push_str(&format!("  {count:width$}  {label}\n"));
    }
    text
}
