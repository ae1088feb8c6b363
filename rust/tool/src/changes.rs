//! What differs between two records: names made and gone, and bits set and cleared.

use crate::held_by::held_by;
use crate::library::{MOST_SUBJECTS, Right};
use crate::names::{Names, listed};
use crate::record::{Name, Record, column_of};

/// A bit that is set in one of two records.
#[derive(Clone, Copy, Debug, PartialEq, Eq)]
pub struct Moved {
    pub login: u64,
    pub over: Name,
    pub right: Right,
    /// Set in the new record; otherwise in the old one.
    pub gained: bool,
    /// By which other right it is held in the new record, though its bit is cleared.
    pub still_by: Option<Right>,
}

/// All that differs, names and moves each in the matrix's order.
#[derive(Clone, Debug, Default, PartialEq, Eq)]
pub struct Changes {
    pub made: Vec<Name>,
    pub gone: Vec<Name>,
    pub moved: Vec<Moved>,
}

impl Changes {
    /// Whether nothing differs.
    pub fn is_empty(&self) -> bool {
        self.made.is_empty() && self.gone.is_empty() && self.moved.is_empty()
    }

    /// The logins that a record may have, to go over what differs login by login.
    pub const LOGINS: std::ops::Range<u64> = 0..MOST_SUBJECTS as u64;

    /// The moves of one login.
    pub fn of_login(&self, login: u64, gained: bool) -> Vec<Moved> {
        let moves = self.moved.iter().copied();
        moves
            .filter(|m| m.login == login && m.gained == gained)
            .collect()
    }
}

/// What differs, right by right. Logins are compared by number and logs by column, also where the two have different sizes. Versions
/// play no part in which bits differ; a right that the new record has no room for is not held there.
pub fn changes(old: &Record, new: &Record) -> Changes {
    let logins = old.logins().max(new.logins());
    let names: Vec<Name> = (0..logins)
        .map(Name::Login)
        .chain((0..old.columns().max(new.columns())).map(Name::Log))
        .collect();
    let mut changes = Changes::default();
    for name in &names {
        match (exists(old, *name), exists(new, *name)) {
            (false, true) => changes.made.push(*name),
            (true, false) => changes.gone.push(*name),
            _ => {}
        }
    }
    for login in 0..logins {
        for over in &names {
            let (before, after) = (cell(old, login, *over), cell(new, login, *over));
            if before != after {
                push_moves(&mut changes.moved, new, (login, *over), before, after);
            }
        }
    }
    changes
}

/// Whether a record has such a name, and it exists.
fn exists(record: &Record, name: Name) -> bool {
    has(record, name) && record.exists(name)
}

/// Whether a column of this kind stands in the record.
fn has(record: &Record, name: Name) -> bool {
    match name {
        Name::Login(s) => s < record.logins(),
        Name::Log(c) => (record.logins()..record.columns()).contains(&c),
    }
}

fn cell(record: &Record, login: u64, over: Name) -> u32 {
    match over {
        Name::Login(c) | Name::Log(c) if has(record, over) => record.cell(login, c),
        _ => 0,
    }
}

fn push_moves(moved: &mut Vec<Moved>, new: &Record, at: (u64, Name), before: u32, after: u32) {
    let (login, over) = at;
    for right in Right::ALL {
        if right.in_cell(before ^ after) {
            moved.push(Moved {
                login,
                over,
                right,
                gained: right.in_cell(after),
                still_by: still_by(new, login, over, right),
            });
        }
    }
}

/// By what a login holds a right in a record, where its own bit is not set and the record has the name.
fn still_by(record: &Record, login: u64, over: Name, right: Right) -> Option<Right> {
    if !has(record, over) {
        return None;
    }
    held_by(record, login, column_of(over), right)
}

/// Moves as parts of a sentence, without the login: what one right does over several names is one part.
pub fn told(moved: &[Moved], names: &Names) -> Vec<String> {
    let mut parts: Vec<Vec<Moved>> = Vec::new();
    for m in moved {
        let alike = |part: &&mut Vec<Moved>| {
            Moved {
                over: m.over,
                ..part[0]
            } == *m
        };
        match parts.iter_mut().find(alike) {
            Some(part) => part.push(*m),
            None => parts.push(vec![*m]),
        }
    }
    parts.iter().map(|part| told_part(part, names)).collect()
}

/// Moves that differ in the name alone.
fn told_part(part: &[Moved], names: &Names) -> String {
    let Moved {
        login,
        right,
        gained,
        still_by,
        ..
    } = part[0];
    let over = listed(part.iter().map(|m| match m.over {
        Name::Login(s) if s == login => String::from("itself"),
        other => names.name(other),
    }));
    let verb = if gained { "gains" } else { "loses" };
    let rest = match still_by {
        Some(by) => format!(", but still holds it by {}", names.right(by)),
        None => String::new(),
    };
    format!("{verb} {} over {over}{rest}", names.right(right))
}

/// Whether a name is made or gone, as a sentence.
pub fn told_name(name: Name, made: bool, names: &Names) -> String {
    let what = if made { "is made" } else { "is gone" };
    format!("{} {what}", names.name(name))
}

/// What differs, in words: logs first, then each login with what it gains and loses.
pub fn by_login(changes: &Changes, names: &Names) -> String {
    let mut text = String::new();
    for (list, made) in [(&changes.gone, false), (&changes.made, true)] {
        for name in list.iter().filter(|name| matches!(name, Name::Log(_))) {
            text.push_str(&format!("{}.\n", told_name(*name, made, names)));
        }
    }
    for login in Changes::LOGINS {
        text.push_str(&of_login(login, changes, names));
    }
    text
}

/// What differs of one login; nothing where nothing does.
fn of_login(login: u64, changes: &Changes, names: &Names) -> String {
    let name = Name::Login(login);
    let lost = changes.of_login(login, false);
    let gained = changes.of_login(login, true);
    let state = if changes.made.contains(&name) {
        " is made"
    } else if changes.gone.contains(&name) {
        " is gone"
    } else if lost.is_empty() && gained.is_empty() {
        return String::new();
    } else {
        ""
    };
    let mut text = format!("{}{state}:\n", names.name(name));
    for part in told(&lost, names).into_iter().chain(told(&gained, names)) {
        text.push_str(&format!("  {part}\n"));
    }
    text
}
