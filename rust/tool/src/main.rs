//! The program `bunvespo`. Every answer about a record is a call of the proved library, through the module `library`.

mod answer;
mod changes;
mod command_text;
mod commands;
mod faults;
mod held_by;
mod history;
mod html;
mod input;
mod json;
mod leak;
mod library;
mod names;
mod names_file;
mod no_answer;
mod record;
mod replace;
mod sentence;
mod spoken;
mod stop;
mod table;
#[cfg(test)]
mod tests;
mod tree;
mod version;
mod why;
mod window_file;
mod words;

use std::env;
use std::io::{self, ErrorKind, Write};
use std::panic;
use std::process::ExitCode;

use answer::{Answer, Exit};
use no_answer::{Answered, NoAnswer};
use words::{Given, Request};

/// What `bunvespo help` prints.
const HELP: &str = include_str!("help.txt");

fn main() -> ExitCode {
    panic::set_hook(Box::new(|defect| {
        let place = defect.location().map(ToString::to_string);
        complain(&format!(
            "a defect of the program at {}",
            place.unwrap_or_default()
        ));
    }));
    let answered = panic::catch_unwind(|| answer().and_then(print));
    match answered {
        Ok(Ok(Exit::Yes)) => ExitCode::SUCCESS,
        Ok(Ok(Exit::No)) => ExitCode::from(1),
        Ok(Err(why)) => {
            complain(&why.to_string());
            ExitCode::from(2)
        }
        Err(_) => ExitCode::from(2),
    }
}

/// The sentence on the standard error. That nobody reads it is no trouble.
fn complain(why: &str) {
    let _ = writeln!(io::stderr(), "bunvespo: {why}.");
}

fn answer() -> Answered<Answer> {
    match words::parse(env::args_os().skip(1))? {
        Request::Help => Ok(Answer::new(String::from(HELP), true)),
        Request::Do(given) => run(&given),
    }
}

fn run(given: &Given) -> Answered<Answer> {
    match given.command {
        "new" => commands::new::new(given),
        "convert" => commands::convert::convert(given),
        "show" => commands::show::show(given),
        "check" => commands::check::check(given),
        "held" => commands::held::held(given),
        "who" => commands::held::who(given),
        "ask" => commands::ask::ask(given),
        "run" => commands::run::run(given),
        "refused" => commands::refused::refused(given),
        "log" => commands::log::log(given),
        "why" => commands::why::why(given),
        "audit" => commands::audit::audit(given),
        "adopt" => commands::adopt::adopt(given),
        _ => commands::diff::diff(given),
    }
}

/// Prints an answer. Who closes the pipe early has read enough.
fn print(answer: Answer) -> Answered<Exit> {
    let mut out = io::stdout().lock();
    match out.write_all(&answer.out).and_then(|()| out.flush()) {
        Err(error) if error.kind() != ErrorKind::BrokenPipe => Err(NoAnswer(format!(
            "the standard output can't be written: {error}"
        ))),
        _ => Ok(answer.exit),
    }
}
