//! Asks the proved library, through its C interface, and the second implementation the same seeded inputs, and
//! compares answers, numbers and buffers to the last byte. It exits with 0 only if all agree, and in each version of the
//! record every refusal and answer that the manual gives occurred, and so did valid records of every size and whole ones above
//! the limits of n and p.
//!
//!     compare [--inputs N] [--seed S] [--program PATH]
//!
//! N is the number of inputs on records drawn at random. The inputs of `first_held`, those of cells with every right and those
//! of windows are not among the N.

mod above;
mod cells;
mod check;
mod convert;
mod count;
mod count_first;
mod count_windows;
mod damage;
mod facts;
mod first;
mod forged;
mod generate;
mod guarded;
mod inputs;
mod length;
mod library;
mod matrix;
mod program;
mod random;
mod rounds;
mod small;
mod window;

use std::process::ExitCode;
use std::thread;
use std::time::Instant;

use check::Difference;
use count::Versions;
use count_windows::Windows;
use random::Random;
use small::Searches;

/// What the command line asks for.
struct Options {
    inputs: u64,
    seed: u64,
    program: String,
}

/// Where `rt ci`, or `rt run` in the crate's folder, writes the program.
const PROGRAM: &str = concat!(
    env!("CARGO_MANIFEST_DIR"),
    "/../../crates/safety_question/out/safety_question"
);

/// How many inputs on records there are to one time with windows.
const INPUTS_TO_WINDOWS: u64 = 350_000;

/// The stream of random numbers of the first time with windows, beyond those of all rounds, and that of cells.
const FIRST_OF_WINDOWS: u64 = 1 << 48;
const OF_CELLS: u64 = 1 << 49;

fn options() -> Result<Options, String> {
    let mut options = Options {
        inputs: 700_000,
        seed: 1,
        program: String::from(PROGRAM),
    };
    let mut arguments = std::env::args().skip(1);
    while let Some(option) = arguments.next() {
        let value = arguments
            .next()
            .ok_or(format!("{option} wants a value after it"))?;
        let number = || {
            let parsed = value.parse::<u64>();
            parsed.map_err(|_| format!("{option}: {value} is no whole number"))
        };
        match option.as_str() {
            "--inputs" => options.inputs = number()?,
            "--seed" => options.seed = number()?,
            "--program" => options.program = value,
            _ => return Err(format!("there is no option {option}")),
        }
    }
    Ok(options)
}

/// A difference in words, with where in a run it was met.
fn told(options: &Options, place: &str, number: u64, d: Difference) -> String {
    format!(
        "DIFFERENCE, seed {}, {place} {number}\ncall: {}\ninputs: {}\nsecond implementation: {}\nlibrary: {}",
        options.seed, d.call, d.inputs, d.reference, d.library
    )
}

/// Rounds until there were as many inputs on records as asked for. Those of `first_held` come on top.
fn run_rounds(options: &Options, counts: &mut Versions) -> Result<(), String> {
    let mut searches = Searches::default();
    let mut number = 0;
    while counts.inputs_but_first_held() < options.inputs {
        let mut random = Random::new(options.seed, number);
        rounds::round(number, &mut random, &mut searches, counts)
            .map_err(|difference| told(options, "round", number, difference))?;
        number += 1;
    }
    Ok(())
}

/// Windows: once, and once more for each further 350,000 inputs on records that are asked for.
fn run_windows(options: &Options, counts: &mut Windows) -> Result<(), String> {
    for number in 0..options.inputs.div_ceil(INPUTS_TO_WINDOWS).max(1) {
        let mut random = Random::new(options.seed, FIRST_OF_WINDOWS + number);
        window::all(&mut random, counts)
            .map_err(|difference| told(options, "windows", number, difference))?;
    }
    Ok(())
}

/// Cells of a login over a login and over a log, with every right. At version 1 they are the same in every run.
fn run_cells(options: &Options, counts: &mut Versions) -> Result<(), String> {
    let mut random = Random::new(options.seed, OF_CELLS);
    cells::all(&mut random, counts).map_err(|difference| told(options, "cells", 0, difference))
}

/// One part of the calls, and the line that tells its inputs and its seconds. The counts are new ones.
fn part<C>(
    what: &str,
    counts: &mut C,
    run: impl FnOnce(&mut C) -> Result<(), String>,
    inputs: impl FnOnce(&C) -> u64,
) -> Result<String, String> {
    let started = Instant::now();
    run(counts)?;
    let (inputs, seconds) = (inputs(counts), started.elapsed().as_secs_f64());
    Ok(format!("{inputs} inputs{what} in {seconds:.1} s"))
}

/// Cells, and then windows, with the lines that tell of them.
fn run_others(
    options: &Options,
    cells: &mut Versions,
    windows: &mut Windows,
) -> Result<[String; 2], String> {
    let run = |counts: &mut Versions| run_cells(options, counts);
    let what = " of cells with every right";
    let of_cells = part(what, cells, run, Versions::inputs)?;
    let [not_held, held] = cells.held();
    let run = |counts: &mut Windows| run_windows(options, counts);
    let of_windows = part(" of windows", windows, run, Windows::inputs)?;
    let of_cells = format!("{of_cells}: held {held}, not held {not_held}");
    Ok([of_cells, of_windows])
}

/// The calls, with the inputs and the seconds of each part; what never occurred and should have. The rounds take about as
/// long as the others, and go on at the same time. Those of cells are counted apart: what has to occur at least once has to do
/// so in the rounds.
fn run_calls(options: &Options) -> Result<Vec<String>, String> {
    let (mut counts, mut cells) = (Versions::new(), Versions::new());
    let mut windows = Windows::new();
    let (rounds, others) = thread::scope(|scope| {
        let others = scope.spawn(|| run_others(options, &mut cells, &mut windows));
        let run = |counts: &mut Versions| run_rounds(options, counts);
        let rounds = part("", &mut counts, run, Versions::inputs);
        (rounds, others.join().expect("cells and windows are asked"))
    });
    let (rounds, [of_cells, of_windows]) = (rounds?, others?);
    print!("{counts}{windows}");
    println!("{rounds}\n{of_cells}\n{of_windows}");
    Ok([counts.missing(), windows.missing()].concat())
}

/// The calls on records and on windows, and the program.
fn compare(options: &Options) -> Result<(), String> {
    println!("seed {}", options.seed);
    let mut missing = run_calls(options)?;
    missing.extend(program::compare(&options.program, options.seed)?);
    if !missing.is_empty() {
        return Err(format!("never occurred: {}", missing.join("; ")));
    }
    println!("no difference");
    Ok(())
}

fn main() -> ExitCode {
    match options().and_then(|options| compare(&options)) {
        Ok(()) => ExitCode::SUCCESS,
        Err(message) => {
            eprintln!("compare: {message}");
            ExitCode::FAILURE
        }
    }
}
