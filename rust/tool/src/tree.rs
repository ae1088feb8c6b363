//! Who owns whom, as a tree of text.

use crate::names::Names;
use crate::record::{Name, Record, column_of};

/// The tree from U downward, each line with its end.
pub fn tree(record: &Record, names: &Names, width: usize) -> String {
    let mut tree = Tree {
        record,
        names,
        width,
        text: String::new(),
    };
    tree.add(0, "", "", 0);
    tree.text
}

struct Tree<'a> {
    record: &'a Record,
    names: &'a Names,
    width: usize,
    text: String,
}

impl Tree<'_> {
    /// Adds a login, its logs, and the logins below it. `branch` stands before it, `before` before what is below it.
    fn add(&mut self, login: u64, branch: &str, before: &str, level: usize) {
        let label = self.names.label(Name::Login(login));
        let u = if login == 0 { " (U)" } else { "" };
        let branch = shortened(branch, level, self.width);
        self.text.push_str(&format!("{branch}{label}{u}\n"));
        let owned = self.record.owned(login).into_iter();
        let (below, logs): (Vec<Name>, Vec<Name>) = owned
            .map(|column| self.record.name(column))
            .partition(|name| matches!(name, Name::Login(_)));
        if !logs.is_empty() {
            let bar = if below.is_empty() { "   " } else { "│  " };
            let before = shortened(&format!("{before}{bar}"), level, self.width);
            self.add_logs(&before, &logs);
        }
        for (at, name) in below.iter().enumerate() {
            let last = at + 1 == below.len();
            let (branch, bar) = if last {
                ("└─ ", "   ")
            } else {
                ("├─ ", "│  ")
            };
            let (branch, bar) = (format!("{before}{branch}"), format!("{before}{bar}"));
            self.add(column_of(*name), &branch, &bar, level + 1);
        }
    }

    /// Adds the logs that a login owns, in lines that fit.
    fn add_logs(&mut self, before: &str, logs: &[Name]) {
        let mut line = format!("{before}owns");
        for (at, part) in runs(logs, self.names).iter().enumerate() {
            let comma = if at == 0 { " " } else { ", " };
            if at > 0 && line.chars().count() + part.chars().count() + 3 > self.width {
                self.text.push_str(&format!("{line},\n"));
                line = format!("{before}     {part}");
            } else {
                line.push_str(&format!("{comma}{part}"));
            }
        }
        self.text.push_str(&format!("{line}\n"));
    }
}

/// What stands before a line, or the level where that takes half the width.
fn shortened(before: &str, level: usize, width: usize) -> String {
    if 2 * before.chars().count() <= width {
        return String::from(before);
    }
    let branch = before.chars().rev().take(3).collect::<Vec<_>>();
    let branch: String = branch.into_iter().rev().collect();
    let level = format!("(level {level})");
    format!("{level:fill$}{branch}", fill = width / 2 - 6)
}

/// Logs by name, or by number, three or more in a row as one.
fn runs(logs: &[Name], names: &Names) -> Vec<String> {
    let mut runs: Vec<Vec<Name>> = Vec::new();
    for log in logs {
        let named = names.of_names.contains_key(log);
        match runs.last_mut() {
            Some(run) if !named && follows(run, *log, names) => run.push(*log),
            _ => runs.push(vec![*log]),
        }
    }
    let told = |run: Vec<Name>| match run.as_slice() {
        [first, .., last] if run.len() > 2 => {
            vec![format!(
                "logs {} to {}",
                column_of(*first),
                column_of(*last)
            )]
        }
        _ => run.iter().map(|log| names.label(*log)).collect(),
    };
    runs.into_iter().flat_map(told).collect()
}

/// Whether a log comes next after a run of logs without names.
fn follows(run: &[Name], log: Name, names: &Names) -> bool {
    let last = run[run.len() - 1];
    !names.of_names.contains_key(&last) && column_of(last) + 1 == column_of(log)
}
