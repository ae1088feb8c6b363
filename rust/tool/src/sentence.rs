//! A command as a sentence, such as `login 1 grants r0 over log 3 to login 2`, and back.

use crate::library::{Basic, Command, Right, code};
use crate::names::Names;
use crate::record::Record;
use crate::spoken;

/// A command in words; none where its numbers are no command's.
pub fn sentence(c: Command, record: &Record, names: &Names) -> Option<String> {
    let (i, s) = (names.login(c.i), names.login(c.s));
    let o = names.name(record.name(c.o));
    if let Some((verb, right)) = act(c, record) {
        let to = if verb == "deletes" { "from" } else { "to" };
        let right = names.right(right);
        return Some(format!("{i} {verb} {right} over {o} {to} {s}"));
    }
    match (c.code, c.s, c.o, c.k) {
        (code::CREATE_OBJECT, 0, _, 0) => Some(format!("{i} creates {o}")),
        (code::DESTROY_OBJECT, 0, _, 0) => Some(format!("{i} destroys {o}")),
        (code::CREATE_SUBJECT, _, 0, 0) => Some(format!("{i} creates {s}")),
        (code::DESTROY_SUBJECT, _, 0, 0) => Some(format!("{i} destroys {s}")),
        _ => None,
    }
}

/// A command in words, where it has some, and in numbers.
pub fn in_full(c: Command, record: &Record, names: &Names) -> String {
    let words = sentence(c, record, names).map(|words| format!("{words}   "));
    format!("{}[{}]", words.unwrap_or_default(), numbers(c))
}

/// The verb and the right of a command that moves one; none for others, and where k is no basic right of the record or not 0 as it
/// should be.
fn act(c: Command, record: &Record) -> Option<(&'static str, Right)> {
    let k = Basic::from_number(c.k).filter(|k| k.number() < record.basics())?;
    let (verb, right) = match c.code {
        code::TRANSFER => ("transfers", Right::Plain(k)),
        code::TRANSFER_STARRED => ("transfers", Right::Starred(k)),
        code::GRANT => ("grants", Right::Plain(k)),
        code::GRANT_STARRED => ("grants", Right::Starred(k)),
        code::DELETE => ("deletes", Right::Plain(k)),
        code::DELETE_STARRED => ("deletes", Right::Starred(k)),
        code::TRANSFER_OWN if c.k == 0 => ("transfers", Right::Own),
        code::GRANT_CONTROL if c.k == 0 => ("grants", Right::Control),
        code::GRANT_OWN if c.k == 0 => ("grants", Right::Own),
        _ => return None,
    };
    Some((verb, right))
}

/// The five numbers of a command.
pub fn numbers(c: Command) -> String {
    format!("{} {} {} {} {}", c.code, c.i, c.s, c.o, c.k)
}

/// The command of a line: five numbers, or a sentence. Numbers beyond the record are left to the library.
pub fn parse(line: &str, record: &Record, names: &Names) -> Result<Command, String> {
    let words = split(line)?;
    let numbers: Option<Vec<u64>> = words
        .iter()
        .map(|word| spoken::number(word).ok()?)
        .collect();
    match numbers.as_deref() {
        Some([code, i, s, o, k]) => return Ok(Command::new(*code, *i, *s, *o, *k)),
        Some(other) => {
            let count = other.len();
            return Err(format!(
                "a command in numbers has five, code i s o k, and not {count}"
            ));
        }
        None => {}
    }
    let mut rest = words.as_slice();
    let i = spoken::login(&name(&mut rest)?, names)?;
    let verb = next(&mut rest)?;
    let c = match verb.as_str() {
        "transfers" | "grants" | "deletes" => over(&verb, i, &mut rest, record, names)?,
        "creates" => made_or_destroyed(true, i, &mut rest, record, names)?,
        "destroys" => made_or_destroyed(false, i, &mut rest, record, names)?,
        _ => {
            return Err(format!(
                "'{verb}' is none of transfers, grants, deletes, creates and destroys"
            ));
        }
    };
    match rest.first() {
        None => Ok(c),
        Some(word) => Err(format!("'{word}' is one word too many")),
    }
}

/// `creates COLUMN` and `destroys COLUMN`, of a login or a log.
fn made_or_destroyed(
    made: bool,
    i: u64,
    rest: &mut &[String],
    record: &Record,
    names: &Names,
) -> Result<Command, String> {
    let column = spoken::column(&name(rest)?, record, names)?;
    Ok(match (made, column < record.logins()) {
        (true, false) => Command::create_object(i, column),
        (false, false) => Command::destroy_object(i, column),
        (true, true) => Command::create_subject(i, column),
        (false, true) => Command::destroy_subject(i, column),
    })
}

/// `RIGHT over COLUMN to LOGIN`, or for deletes `from LOGIN`.
fn over(
    verb: &str,
    i: u64,
    rest: &mut &[String],
    record: &Record,
    names: &Names,
) -> Result<Command, String> {
    let right = spoken::right(&next(rest)?, record, names)?;
    expect(rest, "over")?;
    let o = spoken::column(&name(rest)?, record, names)?;
    expect(rest, if verb == "deletes" { "from" } else { "to" })?;
    let s = spoken::login(&name(rest)?, names)?;
    match (verb, right) {
        ("transfers", Right::Own) => Ok(Command::transfer_own(i, s, o)),
        ("transfers", Right::Plain(k)) => Ok(Command::transfer(i, s, o, k)),
        ("transfers", Right::Starred(k)) => Ok(Command::transfer_starred(i, s, o, k)),
        ("grants", Right::Own) => Ok(Command::grant_own(i, s, o)),
        ("grants", Right::Control) => Ok(Command::grant_control(i, s, o)),
        ("grants", Right::Plain(k)) => Ok(Command::grant(i, s, o, k)),
        ("grants", Right::Starred(k)) => Ok(Command::grant_starred(i, s, o, k)),
        ("deletes", Right::Plain(k)) => Ok(Command::delete(i, s, o, k)),
        ("deletes", Right::Starred(k)) => Ok(Command::delete_starred(i, s, o, k)),
        _ => Err(format!("there is no command that {verb} {right}")),
    }
}

/// The words of a line. Words in quotes are one.
fn split(line: &str) -> Result<Vec<String>, String> {
    let mut words = Vec::new();
    let mut rest = line.trim();
    while !rest.is_empty() {
        let (word, after) = match rest.strip_prefix('"') {
            Some(inside) => inside.split_once('"').ok_or("a quote is not closed")?,
            None => rest.split_at(rest.find(char::is_whitespace).unwrap_or(rest.len())),
        };
        words.push(String::from(word));
        rest = after.trim_start();
    }
    Ok(words)
}

fn next(rest: &mut &[String]) -> Result<String, String> {
    let (first, after) = rest.split_first().ok_or("the command ends too early")?;
    *rest = after;
    Ok(first.clone())
}

fn expect(rest: &mut &[String], wanted: &str) -> Result<(), String> {
    let word = next(rest)?;
    if word == wanted {
        return Ok(());
    }
    Err(format!("'{word}' stands where '{wanted}' has to"))
}

/// A name: one word, or `login` or `log` and a number.
fn name(rest: &mut &[String]) -> Result<String, String> {
    let word = next(rest)?;
    if word == "login" || word == "log" {
        return Ok(format!("{word} {}", next(rest)?));
    }
    Ok(word)
}
