//! The words of the command line: the command, its words, and its options.

use std::ffi::OsString;

use crate::no_answer::{Answered, no_answer, shown};

/// What a command takes.
pub struct Form {
    pub command: &'static str,
    pub words: &'static [&'static str],
    pub options: &'static [&'static str],
    /// The option with which a command takes these words, where it has two forms.
    with: Option<&'static str>,
}

impl Form {
    /// What a command takes, where so many words are given that it does not take.
    fn takes(&self, given: usize) -> String {
        let (command, words) = (self.command, self.words.join(" "));
        let with = self.with.map(|option| format!(" with {option}"));
        let with = with.unwrap_or_default();
        let given = match given {
            1 => String::from("1 word is"),
            count => format!("{count} words are"),
        };
        format!("{command} takes {words}{with}, and {given} given")
    }
}

/// The commands. `--names FILE` is taken by each that reads a record and prints names.
pub const FORMS: [Form; 15] = [
    form("new", &["FILE", "LOGINS", "LOGS"], &["--version"]),
    form("convert", &["FILE", "VERSION", "OUT"], &["--names"]),
    form("show", &["FILE"], &["--html", "--names"]),
    form("check", &["FILE"], &["--json", "--names"]),
    form(
        "held",
        &["FILE", "LOGIN", "COLUMN", "RIGHT"],
        &["--json", "--names"],
    ),
    form("who", &["FILE", "COLUMN", "RIGHT"], &["--names"]),
    form(
        "ask",
        &["FILE", "TRUSTED", "LOGIN", "COLUMN", "RIGHT"],
        &["--html", "--json", "--names"],
    ),
    form(
        "run",
        &["FILE", "COMMANDS"],
        &["--dry", "--names", "--window"],
    ),
    form("refused", &["WINDOW"], &["--json", "--names"]),
    form("diff", &["OLD", "NEW"], &["--json", "--names"]),
    Form {
        with: Some("--at"),
        ..form("log", &["FILE", "OUT"], &["--at"])
    },
    form("log", &["FILE"], &["--json", "--names"]),
    form(
        "why",
        &["FILE", "LOGIN", "COLUMN", "RIGHT"],
        &["--json", "--names"],
    ),
    form("audit", &["FILE"], &["--json", "--names"]),
    form("adopt", &["FILE"], &["--names"]),
];

const fn form(
    command: &'static str,
    words: &'static [&'static str],
    options: &'static [&'static str],
) -> Form {
    Form {
        command,
        words,
        options,
        with: None,
    }
}

/// The options, each with what follows it.
const OPTIONS: [(&str, Option<&str>); 7] = [
    ("--at", Some("a change's number")),
    ("--json", None),
    ("--dry", None),
    ("--html", Some("a file")),
    ("--names", Some("a file")),
    ("--window", Some("a file")),
    ("--version", Some("a record's version, 1 or 2")),
];

/// What was given: as many words as the command takes, and its options.
pub struct Given {
    pub command: &'static str,
    pub words: Vec<OsString>,
    pub json: bool,
    pub dry: bool,
    pub html: Option<OsString>,
    pub names: Option<OsString>,
    pub window: Option<OsString>,
    pub version: Option<OsString>,
    pub at: Option<OsString>,
}

impl Given {
    /// A word that is a number, a name or a right.
    pub fn text(&self, at: usize) -> Answered<&str> {
        match self.words[at].to_str() {
            Some(text) => Ok(text),
            None => no_answer(format!(
                "'{}' is not written in UTF-8",
                shown(&self.words[at])
            )),
        }
    }
}

/// What is asked for.
pub enum Request {
    Help,
    Do(Given),
}

/// Reads the words after the program's name.
pub fn parse(arguments: impl Iterator<Item = OsString>) -> Answered<Request> {
    let mut arguments = arguments.peekable();
    if arguments.peek().is_none_or(|first| first == "help") {
        return Ok(Request::Help);
    }
    let mut split = Split::default();
    while let Some(argument) = arguments.next() {
        if split.ended || argument == "-" || !is_option(&argument) {
            split.words.push(argument);
        } else if argument == "--" {
            split.ended = true;
        } else if argument == "--help" || argument == "-h" {
            return Ok(Request::Help);
        } else {
            split.option(&argument, &mut arguments)?;
        }
    }
    split.given().map(Request::Do)
}

/// The words and options met so far.
#[derive(Default)]
struct Split {
    ended: bool,
    words: Vec<OsString>,
    options: Vec<(&'static str, Option<OsString>)>,
}

impl Split {
    /// Takes an option, and where it has a value and no `=` the next argument as that.
    fn option(
        &mut self,
        argument: &OsString,
        rest: &mut impl Iterator<Item = OsString>,
    ) -> Answered<()> {
        let Some((name, follows)) = OPTIONS.into_iter().find(|(name, _)| names(argument, name))
        else {
            let word = shown(argument);
            return no_answer(format!(
                "'{word}' is no option; a word that begins with - stands after --"
            ));
        };
        let is_value = |next: &OsString| next == "-" || !is_option(next);
        let value = match after_equals(argument, name) {
            None if follows.is_some() => rest.next().filter(is_value),
            value => value,
        };
        match (follows, &value) {
            (Some(what), None) => {
                return no_answer(format!("the option {name} is followed by {what}"));
            }
            (None, Some(_)) => return no_answer(format!("the option {name} has no value")),
            _ => {}
        }
        if self.options.iter().any(|(other, _)| *other == name) {
            return no_answer(format!("the option {name} stands twice"));
        }
        self.options.push((name, value));
        Ok(())
    }

    /// The words and options against the form of their command.
    fn given(self) -> Answered<Given> {
        let mut words = self.words.into_iter();
        let Some(first) = words.next() else {
            return no_answer("there is no command; 'bunvespo help' says which there are");
        };
        let set = |name: &str| self.options.iter().find(|(other, _)| *other == name);
        let fits = |form: &&Form| form.with.is_none_or(|option| set(option).is_some());
        let mut forms = FORMS.iter().filter(fits);
        let Some(form) = forms.find(|form| first == form.command) else {
            let word = shown(&first);
            return no_answer(format!(
                "'{word}' is no command; 'bunvespo help' says which there are"
            ));
        };
        let (command, words) = (form.command, words.collect::<Vec<_>>());
        if words.len() != form.words.len() {
            return no_answer(form.takes(words.len()));
        }
        let mut options = self.options.iter();
        if let Some((name, _)) = options.find(|(name, _)| !form.options.contains(name)) {
            return no_answer(format!("{command} has no option {name}"));
        }
        let value = |name: &str| set(name).and_then(|(_, value)| value.clone());
        Ok(Given {
            command,
            words,
            json: set("--json").is_some(),
            dry: set("--dry").is_some(),
            html: value("--html"),
            names: value("--names"),
            window: value("--window"),
            version: value("--version"),
            at: value("--at"),
        })
    }
}

/// Whether an argument is an option of this name, alone or with `=` and a value.
fn names(argument: &OsString, name: &str) -> bool {
    argument == name || after_equals(argument, name).is_some()
}

/// Whether an argument begins as an option does.
fn is_option(argument: &OsString) -> bool {
    argument.as_encoded_bytes().starts_with(b"-")
}

/// What stands after an option's name and `=`.
fn after_equals(argument: &OsString, name: &str) -> Option<OsString> {
    let text = argument.to_str()?;
    let value = text.strip_prefix(name)?.strip_prefix('=')?;
    Some(OsString::from(value))
}
