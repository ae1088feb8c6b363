//! The matrix as a coloured grid, whole or a part of it, and where a record before is given with the cells that change.

use crate::html::escape;
use crate::library::Right;
use crate::names::Names;
use crate::record::{Name, Record, column_of, rights_in};
use crate::table::{between, short};

/// The most columns with each right in words; grids of more have short cells, with the words as each cell's title.
const MOST_WORDY: usize = 14;

/// What is drawn.
pub struct Grid<'a> {
    pub record: &'a Record,
    pub names: &'a Names,
    pub rows: Vec<u64>,
    pub columns: Vec<Name>,
    /// The logins marked as trusted.
    pub trusted: u64,
    /// The record before, where changes are marked.
    pub before: Option<&'a Record>,
    /// The cell that a question is about.
    pub asked: Option<(u64, u64)>,
}

impl Grid<'_> {
    fn is_small(&self) -> bool {
        self.columns.len() > MOST_WORDY
    }

    /// The grid as a table.
    pub fn html(&self) -> String {
        let small = if self.is_small() { " small" } else { "" };
        let mut out =
            format!("<div class=\"wide\"><table class=\"grid{small}\">\n<thead><tr><th></th>");
        for (at, name) in self.columns.iter().enumerate() {
            out.push_str(&self.head(at, *name));
        }
        out.push_str("</tr></thead>\n<tbody>\n");
        for login in &self.rows {
            out.push_str(&self.row(*login));
        }
        out.push_str("</tbody></table></div>\n");
        out
    }

    fn head(&self, at: usize, name: Name) -> String {
        let class = match name {
            Name::Login(_) => String::new(),
            Name::Log(_) => format!("log{}", self.first(at)),
        };
        let label = escape(&self.names.label(name));
        let number = column_of(name);
        format!(
            "<th class=\"{class}\" title=\"column {number}: {label}\"><span>{label}</span></th>"
        )
    }

    /// The class of the first log's column, which has a line before it.
    fn first(&self, at: usize) -> &'static str {
        let is_log = |at: usize| matches!(self.columns[at], Name::Log(_));
        if is_log(at) && (at == 0 || !is_log(at - 1)) {
            " first"
        } else {
            ""
        }
    }

    fn row(&self, login: u64) -> String {
        let label = escape(&self.names.label(Name::Login(login)));
        let trusted = self.trusted >> login & 1 == 1;
        let (class, mut marks) = if trusted {
            ("trusted", vec!["trusted"])
        } else {
            ("", vec![])
        };
        if login == 0 {
            marks.insert(0, "U");
        }
        let mark = match marks.is_empty() {
            true => String::new(),
            false => format!(" <span class=\"mark\">{}</span>", marks.join(", ")),
        };
        let mut out = format!("<tr><th class=\"{class}\">{label}{mark}</th>");
        for (at, name) in self.columns.iter().enumerate() {
            out.push_str(&self.cell(login, *name, self.first(at)));
        }
        out.push_str("</tr>\n");
        out
    }

    fn cell(&self, login: u64, name: Name, first: &str) -> String {
        let column = column_of(name);
        let cell = self.record.cell(login, column);
        let before = self
            .before
            .map_or(cell, |before| before.cell(login, column));
        let mut classes = vec![first.trim()];
        if name == Name::Login(login) && !self.is_small() {
            classes.push("self");
        }
        if before != cell {
            classes.push(if cell & !before == 0 {
                "taken"
            } else {
                "given"
            });
        }
        if self.asked == Some((login, column)) {
            classes.push("asked");
        }
        let content = if self.is_small() {
            classes.push(strongest(cell));
            let lost = short(before & !cell, self.record);
            let lost = if lost.is_empty() {
                lost
            } else {
                format!("<s>{lost}</s>")
            };
            format!("{}{lost}", short(cell, self.record))
        } else {
            self.chips(before, cell)
        };
        classes.retain(|class| !class.is_empty());
        let class = classes.join(" ");
        if cell | before == 0 {
            return format!("<td class=\"{class}\"></td>");
        }
        let title = escape(&self.title(login, name, before, cell));
        format!("<td class=\"{class}\" title=\"{title}\">{content}</td>")
    }

    /// Each right as a word; those lost are struck out.
    fn chips(&self, before: u32, cell: u32) -> String {
        let chip = |right: Right| {
            let change = match (right.in_cell(before), right.in_cell(cell)) {
                (false, _) => " gained",
                (_, false) => " lost",
                _ => "",
            };
            let label = escape(&self.names.right_label(right));
            format!("<span class=\"x {}{change}\">{label}</span>", kind(right))
        };
        rights_in(before | cell).into_iter().map(chip).collect()
    }

    /// A cell in words.
    fn title(&self, login: u64, name: Name, before: u32, cell: u32) -> String {
        let names = self.names;
        let (who, over) = (names.label(Name::Login(login)), names.label(name));
        let mut parts = Vec::new();
        for (rights, verb) in [
            (cell & before, "has"),
            (cell & !before, "gains"),
            (before & !cell, "loses"),
        ] {
            if rights != 0 {
                parts.push(format!("{verb} {}", names.rights(&rights_in(rights))));
            }
        }
        format!("{who} {} over {over}", parts.join(", "))
    }
}

/// The class of a right's colour.
fn kind(right: Right) -> &'static str {
    match right {
        Right::Own => "own",
        Right::Control => "control",
        Right::Plain(_) => "plain",
        Right::Starred(_) => "star",
    }
}

/// The class of a short cell: that of the first of own, control, a starred and a plain right that is in it.
fn strongest(cell: u32) -> &'static str {
    let kinds: Vec<&str> = rights_in(cell).into_iter().map(kind).collect();
    let order = ["own", "control", "star", "plain"];
    order
        .into_iter()
        .find(|kind| kinds.contains(kind))
        .unwrap_or("")
}

/// What the colours and letters mean, in a grid of so many columns.
pub fn legend(columns: usize, record: &Record, names: &Names) -> String {
    let chip = |class: &str, word: &str| format!("<span class=\"x {class}\">{word}</span>");
    let rights = names.of_rights.iter();
    let rights: Vec<String> = rights
        .map(|(k, name)| format!("r{} is called {}", k.number(), escape(name)))
        .collect();
    let rights = match rights.is_empty() {
        true => String::new(),
        false => format!(" Here {}.", rights.join(", ")),
    };
    let short = if columns > MOST_WORDY {
        let (last, (_, commas)) = (record.basics() - 1, between(record));
        format!(
            "<p class=\"legend\">In a cell o is own, c control, 0 to {last} are the basic rights r0 to r{last}{commas}, and * is the \
             star. A cell has the colour of the strongest right in it. Rest the pointer on it for its rights in words.</p>\n"
        )
    } else {
        String::new()
    };
    format!(
        "<p class=\"legend\">A row says what a login has over each column: {}{}{}{}\
         Who has a right with the star may transfer it to others.{rights}</p>\n{short}",
        chip("own", "own"),
        chip("control", "control"),
        chip("plain", "a basic right"),
        chip("star", "one with the star*"),
    )
}
