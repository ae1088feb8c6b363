//! Words of the command line and of command texts: logins, columns, rights and trusted logins, by name or by number.

use crate::library::{Right, trust_mask};
use crate::names::Names;
use crate::record::{Name, Record, column_of};

/// A number of digits alone; none where the word is something else.
pub fn number(word: &str) -> Result<Option<u64>, String> {
    if word.is_empty() || !word.bytes().all(|b| b.is_ascii_digit()) {
        return Ok(None);
    }
    let number = word.parse();
    number
        .map(Some)
        .map_err(|_| format!("{word} is too large a number"))
}

/// The number after a word and a space, as in `login 3`.
fn numbered(word: &str, kind: &str) -> Result<Option<u64>, String> {
    let after = word
        .strip_prefix(kind)
        .and_then(|rest| rest.strip_prefix(' '));
    after.map_or(Ok(None), |rest| number(rest.trim_start()))
}

/// The name that a word is in the file of names.
fn named(word: &str, names: &Names) -> Option<Name> {
    let mut all = names.of_names.iter();
    all.find(|(_, given)| *given == word).map(|(name, _)| *name)
}

/// A login: a number, `login N` or a name. Numbers beyond the record are left to the library.
pub fn login(word: &str, names: &Names) -> Result<u64, String> {
    if let Some(number) = number(word)? {
        return Ok(number);
    }
    if let Some(number) = numbered(word, "login")? {
        return Ok(number);
    }
    match named(word, names) {
        Some(Name::Login(s)) => Ok(s),
        Some(Name::Log(_)) => Err(format!("'{word}' is a log and no login")),
        None => Err(format!("'{word}' is neither a login's number nor its name")),
    }
}

/// A column: a number, `login N`, `log N` or a name. A bare number beyond the record is left to the library.
pub fn column(word: &str, record: &Record, names: &Names) -> Result<u64, String> {
    if let Some(number) = number(word)? {
        return Ok(number);
    }
    if let Some(number) = numbered(word, "login")? {
        if number >= record.logins() {
            return Err(format!("login {number} is beyond the record"));
        }
        return Ok(number);
    }
    if let Some(number) = numbered(word, "log")? {
        if number < record.logins() {
            return Err(format!("column {number} is a login and no log"));
        }
        return Ok(number);
    }
    let name = named(word, names);
    name.map(column_of)
        .ok_or_else(|| format!("'{word}' is neither the number nor the name of a login or log"))
}

/// A right that the record's version has: own, control, a basic right by number or name, with the star or without, or a code.
pub fn right(word: &str, record: &Record, names: &Names) -> Result<Right, String> {
    let (rights, version) = (record.rights(), record.version());
    let (last, last_basic) = (rights.len() - 1, record.basics() - 1);
    if let Some(code) = number(word)? {
        let right = Right::from_code(code).filter(|right| rights.contains(right));
        return right.ok_or_else(|| {
            format!(
                "{code} is no right's code, which are 0 to {last} in a record of version {version}"
            )
        });
    }
    match word.parse().ok().or_else(|| right_named(word, names)) {
        Some(right) if rights.contains(&right) => Ok(right),
        Some(Right::Plain(k) | Right::Starred(k)) => Err(record.without(k.number())),
        _ => Err(format!(
            "'{word}' is no right, which is own, control, r0 to r{last_basic}, 'r0*' to 'r{last_basic}*', a name for one of these, or a code 0 to {last}"
        )),
    }
}

/// The right that a word is by the file of names.
fn right_named(word: &str, names: &Names) -> Option<Right> {
    let plain = word.strip_suffix('*').unwrap_or(word);
    let (k, _) = names.of_rights.iter().find(|(_, name)| *name == plain)?;
    Some(if plain == word {
        Right::Plain(*k)
    } else {
        Right::Starred(*k)
    })
}

/// The mask of trusted logins: names or numbers with commas between, `none`, or `all`.
pub fn trusted(word: &str, record: &Record, names: &Names) -> Result<u64, String> {
    let logins: Result<Vec<u64>, String> = match word {
        "none" => Ok(Vec::new()),
        "all" => Ok((0..record.logins()).collect()),
        _ => word
            .split(',')
            .map(|part| login(part.trim(), names))
            .collect(),
    };
    let logins = logins.map_err(|why| {
        format!("{why}; trusted logins stand with commas between, or are none or all")
    })?;
    let most = logins.iter().max().copied().unwrap_or(0);
    trust_mask(logins).map_err(|_| format!("login {most} is in no record, so it can't be trusted"))
}
