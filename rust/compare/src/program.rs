//! The program safety_question: what it prints, compared with what Manual 10.3 says it prints.

use std::fmt;
use std::io::Write;
use std::process::{Command, Stdio};

use reference::{Safety, buffer_minimum, leaks_by, read, write_list};

use crate::above::{REFUSED, record_above};
use crate::check::hex;
use crate::damage::damage;
use crate::generate::valid_record;
use crate::inputs;
use crate::matrix::{MOST_PLAIN, MOST_SUBJECTS, VERSIONS};
use crate::random::Random;

/// The most bytes of an input that is asked (Manual 10.2).
const INPUT_MAXIMUM: usize = 65_536;

/// The bytes of a question after the record: the trust mask in eight, and s, o and the right.
const QUESTION_BYTES: usize = 11;

/// The number of generated inputs for each version, besides those of special lengths and those with records above the limits.
const GENERATED: u64 = 280;

/// The number of inputs for each version with whole records above the limits.
const ABOVE: u64 = 40;

/// How often the program printed what, for inputs of one kind.
struct Runs {
    kind: String,
    safe: u64,
    leaks: u64,
    refused: [u64; 20],
}

impl Runs {
    fn of(kind: String) -> Runs {
        Runs {
            kind,
            safe: 0,
            leaks: 0,
            refused: [0; 20],
        }
    }

    /// What was never printed for records of a version, in words: safe, leaks, and the refusals of whole records and of
    /// questions.
    fn missing(&self) -> Vec<String> {
        let printed = [
            ("safe", self.safe),
            ("leaks", self.leaks),
            ("refused 3", self.refused[3]),
            ("refused 4", self.refused[4]),
            ("refused 5", self.refused[5]),
            ("refused 7", self.refused[7]),
        ];
        let never = printed.iter().filter(|(_, count)| *count == 0);
        never
            .map(|(line, _)| format!("program, {}: {line}", self.kind))
            .collect()
    }
}

impl fmt::Display for Runs {
    fn fmt(&self, f: &mut fmt::Formatter<'_>) -> fmt::Result {
        let refused: u64 = self.refused.iter().sum();
        let total = self.safe + self.leaks + refused;
        write!(
            f,
            "program, {}: {total} inputs; safe {}, leaks {}, refused",
            self.kind, self.safe, self.leaks
        )?;
        let numbered = self.refused.iter().enumerate();
        for (number, count) in numbered.filter(|(_, count)| **count > 0) {
            write!(f, " {number}: {count}")?;
        }
        writeln!(f)
    }
}

/// A safety question as the program's input gives it.
struct Asked<'a> {
    record: &'a [u8],
    question: [u64; 4],
}

/// Takes an input apart; one of the wrong length gives the refusal that is printed.
fn asked(input: &[u8]) -> Result<Asked<'_>, u64> {
    if input.len() > INPUT_MAXIMUM {
        return Err(4);
    }
    let record_length = input.len().checked_sub(QUESTION_BYTES).ok_or(1u64)?;
    let (record, last) = input.split_at(record_length);
    let trust = last[..8]
        .iter()
        .fold(0, |mask, byte| mask << 8 | u64::from(*byte));
    let [s, o, right] = [last[8], last[9], last[10]].map(u64::from);
    Ok(Asked {
        record,
        question: [trust, s, o, right],
    })
}

/// Whether the printed bytes are exactly a text; what is wrong in words.
fn exactly(text: &str, printed: &[u8]) -> Result<(), String> {
    match printed == text.as_bytes() {
        true => Ok(()),
        false => Err(format!("should have printed {text:?}")),
    }
}

/// The same of a refusal.
fn refused(refusal: u64, printed: &[u8]) -> Result<(), String> {
    exactly(&format!("refused {refusal}\n"), printed)
}

/// What is wrong, with the input.
fn told(seed: u64, input: &[u8], printed: &[u8], fault: &str) -> String {
    format!(
        "DIFFERENCE, seed {seed}, program\ninput: {}\nprinted: {:?}\n{fault}",
        hex(input),
        String::from_utf8_lossy(printed)
    )
}

/// Whether the printed bytes are right for the input; what is wrong in words.
fn check(input: &[u8], printed: &[u8], runs: &mut Runs) -> Result<(), String> {
    let Asked { record, question } = match asked(input) {
        Ok(asked) => asked,
        Err(refusal) => {
            runs.refused[refusal as usize] += 1;
            return refused(refusal, printed);
        }
    };
    let [trust, s, o, right] = question;
    match reference::safety(record, trust, s, o, right, buffer_minimum(MOST_SUBJECTS)) {
        Safety::Refused(refusal) => {
            runs.refused[refusal as usize] += 1;
            refused(refusal, printed)
        }
        Safety::Safe => {
            runs.safe += 1;
            exactly("safe\n", printed)
        }
        Safety::Leaks => {
            runs.leaks += 1;
            check_leak(record, question, printed)
        }
    }
}

/// Reads the lines of a leak and runs them. The text is made again from what was read, so that each byte counts.
fn check_leak(record: &[u8], question: [u64; 4], printed: &[u8]) -> Result<(), String> {
    let text = str::from_utf8(printed).map_err(|_| String::from("printed no text"))?;
    let mut commands: Vec<[u8; 5]> = Vec::new();
    for line in text.lines().skip(1) {
        let numbers: Result<Vec<u8>, _> = line.split(' ').map(str::parse).collect();
        let fields = numbers.ok().and_then(|numbers| numbers.try_into().ok());
        commands.push(fields.ok_or(format!("the line {line:?} is no command"))?);
    }
    let mut again = format!("leaks {}\n", commands.len());
    for [code, i, s, o, k] in &commands {
        again += &format!("{code} {i} {s} {o} {k}\n");
    }
    if again != text {
        return Err(format!("should have printed {again:?}"));
    }
    let [trust, s, o, right] = question;
    leaks_by(record, trust, s, o, right, &write_list(&commands)).map(|_| ())
}

/// What the program prints on an input.
fn print_of(program: &str, input: &[u8]) -> Result<Vec<u8>, String> {
    let failed = |error| {
        format!(
            "cannot run {program}: {error}\n`rt run </dev/null` in crates/safety_question builds it; --program names another place"
        )
    };
    let mut child = Command::new(program)
        .stdin(Stdio::piped())
        .stdout(Stdio::piped())
        .spawn()
        .map_err(failed)?;
    let mut stdin = child.stdin.take().expect("standard input is a pipe");
    // A program that has read enough may end before all is written, so an error in writing is none here.
    let _ = stdin.write_all(input);
    drop(stdin);
    Ok(child.wait_with_output().map_err(failed)?.stdout)
}

/// A generated input: a record of a version, valid or damaged, and a question.
fn generated(version: u8, random: &mut Random) -> Vec<u8> {
    let (n, p) = match random.below(4) {
        0 => (
            1 + random.below(MOST_SUBJECTS),
            random.below(MOST_PLAIN + 1),
        ),
        _ => (1 + random.below(5), random.below(5)),
    };
    let mut input = valid_record(version, n, p, random);
    let station = read(&input).expect("the record was built to be valid");
    let question = inputs::safety_question(&station, random);
    if random.one_in(3) {
        damage(&mut input, random);
    }
    append(&mut input, question);
    if random.one_in(20) {
        input.pop();
    }
    input
}

/// An input with a whole record of a version above the limits and a question about its names.
fn above(version: u8, random: &mut Random) -> Vec<u8> {
    let (mut input, station) = record_above(version, random);
    append(&mut input, inputs::safety_question(&station, random));
    input
}

/// Appends a question to a record.
fn append(input: &mut Vec<u8>, [trust, s, o, right]: [u64; 4]) {
    input.extend(trust.to_be_bytes());
    input.extend([s as u8, o as u8, right as u8]);
}

/// Inputs of special lengths: too short for a question, just a question, and about the most.
fn special() -> Vec<Vec<u8>> {
    let lengths = [0, 1, 10, 11, 12, 17, 18];
    let about_the_most = [
        INPUT_MAXIMUM - 1,
        INPUT_MAXIMUM,
        INPUT_MAXIMUM + 1,
        70_000,
        200_000,
    ];
    let all = lengths.into_iter().chain(about_the_most);
    all.flat_map(|length| [0, 1, 2].map(|byte| vec![byte; length]))
        .collect()
}

/// Runs the program on an input and compares what it prints.
fn ask(program: &str, seed: u64, input: &[u8], runs: &mut Runs) -> Result<Vec<u8>, String> {
    let printed = print_of(program, input)?;
    let checked = check(input, &printed, runs);
    checked.map_err(|fault| told(seed, input, &printed, &fault))?;
    Ok(printed)
}

/// Runs the program on inputs with records of a version.
fn ask_of_version(
    version: u8,
    program: &str,
    seed: u64,
    random: &mut Random,
) -> Result<Runs, String> {
    let mut runs = Runs::of(format!("records of version {version}"));
    for _ in 0..GENERATED {
        ask(program, seed, &generated(version, random), &mut runs)?;
    }
    for _ in 0..ABOVE {
        let input = above(version, random);
        let printed = ask(program, seed, &input, &mut runs)?;
        // An input of too many bytes is refused before its record is looked at.
        let refusal = asked(&input).err().unwrap_or(REFUSED);
        refused(refusal, &printed).map_err(|fault| told(seed, &input, &printed, &fault))?;
    }
    Ok(runs)
}

/// Runs the program on all inputs, compares what it prints, and tells how often it printed what; gives what it never printed
/// and should have.
pub fn compare(program: &str, seed: u64) -> Result<Vec<String>, String> {
    let mut random = Random::new(seed, u64::MAX);
    let mut runs = Runs::of(String::from("special lengths"));
    for input in special() {
        ask(program, seed, &input, &mut runs)?;
    }
    print!("{runs}");
    let mut missing = Vec::new();
    for version in VERSIONS {
        let runs = ask_of_version(version, program, seed, &mut random)?;
        print!("{runs}");
        missing.extend(runs.missing());
    }
    Ok(missing)
}
