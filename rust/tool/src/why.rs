//! Why a command is accepted or refused, in words. Whether it is, and by which number, is the library's answer.

use crate::held_by::held_by;
use crate::library::{Basic, Command, CommandRefused, Refusal, Right, code, held};
use crate::names::{Names, counted};
use crate::record::{Name, Record};

/// The starred right that a transfer needs.
fn needed(c: Command, names: &Names) -> String {
    let k = Basic::from_number(c.k);
    k.map_or(format!("r{}*", c.k), |k| names.right(Right::Starred(k)))
}

/// What allows an accepted command, in the record before it.
pub fn allowed(c: Command, record: &Record, names: &Names) -> String {
    let (i, s) = (names.login(c.i), names.login(c.s));
    let o = names.name(record.name(c.o));
    let owns = held(&record.bytes, c.i, c.o, Right::Own) == Ok(true);
    match c.code {
        code::TRANSFER | code::TRANSFER_STARRED => {
            format!("{i} has {} over {o}", needed(c, names))
        }
        code::TRANSFER_OWN if c.o < record.logins() => {
            format!("{i} owns {o}, which is not {s} nor above it")
        }
        code::GRANT_CONTROL => format!("{i} owns {o}, and nobody else controls it"),
        code::DELETE | code::DELETE_STARRED if !owns => format!("{i} controls {s}"),
        code::CREATE_OBJECT => format!("{o} does not exist yet"),
        code::CREATE_SUBJECT => format!("{s} does not exist yet"),
        code::DESTROY_SUBJECT => format!("{i} owns {s}"),
        _ => format!("{i} owns {o}"),
    }
}

/// Why the library refused a command.
pub fn refused(c: Command, why: CommandRefused, record: &Record, names: &Names) -> String {
    let (i, s) = (names.login(c.i), names.login(c.s));
    let o = names.name(record.name(c.o));
    match why.refusal {
        Refusal::Code => format!("{} is no code, which are 1 to 13", c.code),
        Refusal::Bounds => beyond(c, record),
        Refusal::InitiatorAbsent => format!("{i} does not exist, so it can begin nothing"),
        Refusal::Kind if c.code == code::GRANT_CONTROL => {
            format!("{o} is a log, and this is for logins")
        }
        Refusal::Kind => format!("{o} is a login, and this is for logs"),
        Refusal::NameAbsent => absent(c, record, names),
        Refusal::NameExists if c.code == code::CREATE_OBJECT => format!("{o} exists already"),
        Refusal::NameExists => format!("{s} exists already"),
        Refusal::RightLacking => lacking(c, record, names),
        Refusal::WalkMeets if c.s == c.o => String::from("nobody can own itself"),
        Refusal::WalkMeets => {
            format!("{o} is above {s}, by {}", counted(why.links, "owner link"))
        }
        Refusal::NotSet => unset(c, record, names),
        Refusal::OtherController => {
            let others = names.logins(&record.other_controllers(c.o));
            format!("{o} has another controller: {others}")
        }
        other => String::from(other.words()),
    }
}

/// Which number of a command is out of range (7).
fn beyond(c: Command, record: &Record) -> String {
    let (n, columns) = (record.logins(), record.columns());
    let uses_s = !matches!(c.code, code::CREATE_OBJECT | code::DESTROY_OBJECT);
    let uses_o = !matches!(c.code, code::CREATE_SUBJECT | code::DESTROY_SUBJECT);
    let without_k = matches!(
        c.code,
        code::TRANSFER_OWN | code::GRANT_CONTROL | code::GRANT_OWN
    );
    let logins = |s: u64| {
        let last = n - 1;
        format!("login {s} is beyond the record, which has logins 0 to {last}")
    };
    let zero = |field: &str| format!("code {} does not use {field}, which then is 0", c.code);
    if c.i >= n {
        logins(c.i)
    } else if c.s >= n && uses_s {
        logins(c.s)
    } else if c.o >= columns && uses_o {
        let last = columns - 1;
        format!(
            "column {} is beyond the record, which has columns 0 to {last}",
            c.o
        )
    } else if c.k >= record.basics() && uses_s && uses_o && !without_k {
        record.without(c.k)
    } else if c.s != 0 && !uses_s {
        zero("s")
    } else if c.o != 0 && !uses_o {
        zero("o")
    } else {
        zero("k")
    }
}

/// Which name is absent and has to exist (10).
fn absent(c: Command, record: &Record, names: &Names) -> String {
    let needs_s = !matches!(
        c.code,
        code::CREATE_OBJECT | code::DESTROY_OBJECT | code::CREATE_SUBJECT
    );
    let name = if needs_s && !record.exists(Name::Login(c.s)) {
        Name::Login(c.s)
    } else {
        record.name(c.o)
    };
    format!("{} does not exist", names.name(name))
}

/// Which right the initiator lacks (12).
fn lacking(c: Command, record: &Record, names: &Names) -> String {
    let (i, s) = (names.login(c.i), names.login(c.s));
    let o = names.name(record.name(c.o));
    match c.code {
        code::TRANSFER | code::TRANSFER_STARRED => {
            format!("{i} has no {} over {o}", needed(c, names))
        }
        code::DELETE | code::DELETE_STARRED => format!("{i} neither owns {o} nor controls {s}"),
        code::DESTROY_SUBJECT => format!("{i} does not own {s}"),
        _ => format!("{i} does not own {o}"),
    }
}

/// The right whose bit is not set (19), and by what it is held all the same.
fn unset(c: Command, record: &Record, names: &Names) -> String {
    let (s, o) = (names.login(c.s), names.name(record.name(c.o)));
    let form = match c.code {
        code::DELETE => Right::Plain,
        _ => Right::Starred,
    };
    let Some(right) = Basic::from_number(c.k).map(form) else {
        return String::from(Refusal::NotSet.words());
    };
    let held = match held_by(record, c.s, c.o, right) {
        Some(by) => format!(", who holds it by {}", names.right(by)),
        None => String::new(),
    };
    format!("{} over {o} is not set for {s}{held}", names.right(right))
}

/// Why nobody can ever hold a right over a column; none where somebody can.
pub fn impossible(login: u64, over: Name, right: Right, names: &Names) -> Option<String> {
    let who = names.login(0);
    match (right, over) {
        (Right::Own, Name::Login(0)) => Some(format!("nobody can ever own {who}, which is U")),
        (Right::Own, Name::Login(o)) if o == login => {
            Some(String::from("nobody can ever own itself"))
        }
        (Right::Control, Name::Log(_)) => Some(String::from("nobody can ever control a log")),
        (Right::Control, Name::Login(0)) if login != 0 => Some(format!(
            "nobody but itself can ever control {who}, which is U"
        )),
        _ => None,
    }
}
