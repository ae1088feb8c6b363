//! The matrix as a table of text, in blocks of columns that fit the width.

use crate::library::Right;
use crate::names::Names;
use crate::record::{Name, Record, column_of, rights_in};

/// The longest label of a row or a column; what is longer is cut.
const LONGEST: usize = 16;

/// The table of the names that exist, each line with its end.
pub fn table(record: &Record, names: &Names, width: usize) -> String {
    let logins = record.existing_logins();
    let labels = logins.iter().map(|s| label(Name::Login(*s), names));
    let labels: Vec<String> = labels.collect();
    let first = labels.iter().map(|label| count(label)).max().unwrap_or(0);
    let columns: Vec<Column> = record
        .existing()
        .into_iter()
        .map(|name| Column::new(record, names, name, &logins))
        .collect();
    let mut text = String::new();
    let mut rest = columns.as_slice();
    while !rest.is_empty() {
        let (block, after) = rest.split_at(fitting(rest, width.saturating_sub(first)));
        if !text.is_empty() {
            text.push('\n');
        }
        text.push_str(&line(&" ".repeat(first), block, |column| &column.head));
        for (row, label) in labels.iter().enumerate() {
            if block.iter().any(|column| column.cells[row] != ".") {
                let label = format!("{label:first$}");
                text.push_str(&line(&label, block, |column| &column.cells[row]));
            }
        }
        rest = after;
    }
    text
}

/// A column's head, its cells and their width.
struct Column {
    head: String,
    cells: Vec<String>,
    width: usize,
}

impl Column {
    fn new(record: &Record, names: &Names, name: Name, logins: &[u64]) -> Column {
        let head = match names.of_names.get(&name) {
            Some(_) => label(name, names),
            None => column_of(name).to_string(),
        };
        let text = |cell: u32| {
            if cell == 0 {
                String::from(".")
            } else {
                short(cell, record)
            }
        };
        let cells = logins
            .iter()
            .map(|s| text(record.cell(*s, column_of(name))));
        let cells: Vec<String> = cells.collect();
        let widest = cells.iter().map(|cell| count(cell)).max().unwrap_or(1);
        Column {
            width: widest.max(count(&head)),
            head,
            cells,
        }
    }
}

/// How many columns fit, at least one.
fn fitting(columns: &[Column], width: usize) -> usize {
    let mut used = 0;
    let fit = columns.iter().take_while(|column| {
        used += 2 + column.width;
        used <= width
    });
    fit.count().max(1)
}

/// One line: a label and a text of each column.
fn line<'a>(label: &str, block: &'a [Column], text: impl Fn(&'a Column) -> &'a String) -> String {
    let mut line = String::from(label);
    for column in block {
        line.push_str(&format!("  {:width$}", text(column), width = column.width));
    }
    format!("{}\n", line.trim_end())
}

/// A cell: o for own, c for control, the number of each basic right, with * for the star; nothing where it is empty.
pub fn short(cell: u32, record: &Record) -> String {
    let (mut letters, mut numbers) = (String::new(), Vec::new());
    for right in rights_in(cell) {
        match right {
            Right::Own => letters.push('o'),
            Right::Control => letters.push('c'),
            Right::Plain(k) => numbers.push(k.number().to_string()),
            Right::Starred(k) => numbers.push(format!("{}*", k.number())),
        }
    }
    let (comma, _) = between(record);
    format!("{letters}{}", numbers.join(comma))
}

/// What stands between the numbers in a cell, and how that is said: commas, where a record has basic rights of two digits.
pub fn between(record: &Record) -> (&'static str, &'static str) {
    if record.basics() > 10 {
        (",", ", commas between")
    } else {
        ("", "")
    }
}

/// The label of a name, cut where it is too long, and then with the column's number, so that no two are alike.
fn label(name: Name, names: &Names) -> String {
    let label = names.label(name);
    if count(&label) <= LONGEST {
        return label;
    }
    let number = column_of(name).to_string();
    let start = label.chars().take(LONGEST - 2 - number.len());
    format!("{}… {number}", start.collect::<String>())
}

fn count(text: &str) -> usize {
    text.chars().count()
}
