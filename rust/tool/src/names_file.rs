//! The file of names beside a record or a window: lines such as `login 1 = night-nurse`, `log 3 = bed-3` and `right 0 = read`. Empty
//! lines and lines that begin with `#` say nothing.

use std::collections::BTreeMap;

use crate::library::{Basic, MOST_PLAIN, MOST_SUBJECTS};
use crate::names::Names;
use crate::record::{Name, Record};

/// The names of a file's text, or the number of a line and what is wrong with it. What one of the records has may be named; without a
/// record, each login, log and right that some record has.
pub fn parse(text: &str, records: &[&Record]) -> Result<Names, String> {
    let mut names = Names::default();
    for (at, line) in text.lines().enumerate() {
        let line = line.trim();
        if line.is_empty() || line.starts_with('#') {
            continue;
        }
        add(&mut names, line, records).map_err(|why| format!("line {}: {why}", at + 1))?;
    }
    Ok(names)
}

/// Adds the name that a line gives.
fn add(names: &mut Names, line: &str, records: &[&Record]) -> Result<(), String> {
    let form = "a line is 'login N = NAME', 'log N = NAME' or 'right N = NAME'";
    let (what, name) = line.split_once('=').ok_or(form)?;
    let (kind, number) = what.trim().split_once(' ').ok_or(form)?;
    let number = number.trim();
    let number: u64 = number
        .parse()
        .map_err(|_| format!("'{number}' is no number"))?;
    let name = name.trim();
    tidy(name)?;
    let key = match kind {
        "login" => login_fits(number, records)?,
        "log" => log_fits(number, records)?,
        "right" => {
            let k = right_fits(number, records)?;
            right_name_fits(name)?;
            return insert(&mut names.of_rights, k, name);
        }
        _ => return Err(String::from(form)),
    };
    column_name_fits(name)?;
    insert(&mut names.of_names, key, name)
}

/// What every name has to be, so that it is printed and read again as itself.
fn tidy(name: &str) -> Result<(), String> {
    if name.is_empty() {
        return Err(String::from("there is no name after ="));
    }
    if name.chars().any(|c| c.is_control() || "\",*".contains(c)) {
        return Err(format!(
            "'{name}' has a comma, a star, a quote or a control character"
        ));
    }
    if name.starts_with('#') {
        return Err(format!("'{name}' begins with #, as a comment does"));
    }
    if name.parse::<f64>().is_ok() {
        return Err(format!("'{name}' is a number and no name"));
    }
    Ok(())
}

/// The login of a number, if a record has it, or without a record if some record has.
fn login_fits(number: u64, records: &[&Record]) -> Result<Name, String> {
    let logins = records.iter().map(|record| record.logins());
    let logins = logins.max().unwrap_or(u64::from(MOST_SUBJECTS));
    if number < logins {
        return Ok(Name::Login(number));
    }
    let last = logins - 1;
    Err(if records.is_empty() {
        format!("login {number} is in no record, and logins are 0 to {last}")
    } else {
        format!("login {number} is beyond the record, which has logins 0 to {last}")
    })
}

/// The log of a number, if a record has it, or without a record if some record has.
fn log_fits(number: u64, records: &[&Record]) -> Result<Name, String> {
    let of_record = |record: &&Record| (record.logins(), record.columns());
    let mut logs: Vec<(u64, u64)> = records.iter().map(of_record).collect();
    if logs.is_empty() {
        logs.push((1, u64::from(MOST_SUBJECTS) + u64::from(MOST_PLAIN)));
    }
    if logs
        .iter()
        .any(|(first, end)| (*first..*end).contains(&number))
    {
        return Ok(Name::Log(number));
    }
    let (first, end) = logs[logs.len() - 1];
    Err(if first == end {
        format!("log {number}: the record has no logs")
    } else if records.is_empty() {
        format!(
            "log {number} is in no record, and logs are {first} to {}",
            end - 1
        )
    } else {
        format!("log {number}: the record has logs {first} to {}", end - 1)
    })
}

/// The basic right of a number, if a record has it, or without a record if some record has.
fn right_fits(number: u64, records: &[&Record]) -> Result<Basic, String> {
    let widest = records.iter().max_by_key(|record| record.basics());
    let fits = |k: &Basic| widest.is_none_or(|record| k.number() < record.basics());
    Basic::from_number(number)
        .filter(fits)
        .ok_or_else(|| match widest {
            Some(record) => record.without(number),
            None => {
                let last = Basic::ALL.len() - 1;
                format!("right {number} is in no record, and basic rights are 0 to {last}")
            }
        })
}

/// A right's name is none of the words for a right.
fn right_name_fits(name: &str) -> Result<(), String> {
    let basic = name
        .strip_prefix('r')
        .is_some_and(|k| k.parse::<u64>().is_ok());
    if basic || ["own", "control"].contains(&name) {
        return Err(format!("'{name}' is the word for a right already"));
    }
    Ok(())
}

/// A login's or log's name is none of the words that stand in such a place.
fn column_name_fits(name: &str) -> Result<(), String> {
    let first = name.split(' ').next().unwrap_or(name);
    if ["login", "log"].contains(&first) || ["none", "all"].contains(&name) {
        return Err(format!("'{name}' is a word with a meaning of its own"));
    }
    Ok(())
}

/// Adds a name that nothing else of its kind has, to something that has none.
fn insert<K: Ord>(names: &mut BTreeMap<K, String>, key: K, name: &str) -> Result<(), String> {
    if names.values().any(|other| other == name) {
        return Err(format!("'{name}' is given twice"));
    }
    if let Some(other) = names.get(&key) {
        return Err(format!("it has the name '{other}' already"));
    }
    names.insert(key, String::from(name));
    Ok(())
}
