//! One input of one call, asked of both implementations.

use std::fmt::Write;

use reference::{Answer, Safety, leaks_by, read};

use crate::count::{Call, Counts};
use crate::library::{self, Outcome};

/// An input on which the two differ.
pub struct Difference {
    pub call: &'static str,
    pub inputs: String,
    pub reference: String,
    pub library: String,
}

/// Bytes in hexadecimal.
pub fn hex(bytes: &[u8]) -> String {
    let mut text = String::with_capacity(2 * bytes.len());
    for byte in bytes {
        write!(text, "{byte:02x}").expect("writing to a string does not fail");
    }
    if text.is_empty() {
        text.push_str("(empty)");
    }
    text
}

/// An answer and the bytes after it in words.
pub fn outcome_text(outcome: &Outcome) -> String {
    let Answer { refusal, value } = outcome.answer;
    format!(
        "refusal {refusal}, value {value}, bytes after {}",
        hex(&outcome.written)
    )
}

/// Compares an expected answer with the one given; texts are made only where they differ.
pub fn compare<T: PartialEq>(
    expected: &T,
    got: Result<T, String>,
    text: impl Fn(&T) -> String,
    call: &'static str,
    inputs: impl FnOnce() -> String,
) -> Result<(), Difference> {
    let library = match got {
        Ok(got) if got == *expected => return Ok(()),
        Ok(got) => text(&got),
        Err(fault) => fault,
    };
    Err(Difference {
        call,
        inputs: inputs(),
        reference: text(expected),
        library,
    })
}

/// Whether the record is valid. `null` says to lend empty slices as NULL; likewise below.
pub fn valid(record: &[u8], null: bool, counts: &mut Counts) -> Result<(), Difference> {
    let expected = u64::from(reference::valid(record));
    let got = library::valid(record, null);
    let inputs = || format!("record {}", hex(record));
    compare(&expected, got, u64::to_string, "valid", inputs)?;
    counts.add(Call::Valid, read(record).err().unwrap_or(0));
    Ok(())
}

/// Whether a right is held.
pub fn held(
    record: &[u8],
    question: [u64; 3],
    null: bool,
    counts: &mut Counts,
) -> Result<(), Difference> {
    let [s, o, right] = question;
    let expected = reference::held(record, s, o, right);
    let got = library::held(record, question, null);
    let inputs = || format!("s {s}, o {o}, right {right}, record {}", hex(record));
    compare(&expected, got, |a| format!("{a:?}"), "held", inputs)?;
    counts.add(Call::Held, expected.refusal);
    if expected.refusal == 0 {
        counts.held[expected.value as usize] += 1;
    }
    Ok(())
}

/// One command.
pub fn command(
    record: &[u8],
    fields: [u64; 5],
    null: bool,
    counts: &mut Counts,
) -> Result<(), Difference> {
    let mut after = record.to_vec();
    let answer = reference::command(&mut after, fields);
    let expected = Outcome {
        answer,
        written: after,
    };
    let got = library::command(record, fields, null);
    let inputs = || format!("code, i, s, o, k {fields:?}, record {}", hex(record));
    compare(&expected, got, outcome_text, "command", inputs)?;
    counts.add(Call::Command, answer.refusal);
    let [code, _, s, o, k] = fields;
    if answer.refusal == 0 {
        counts.accepted[code as usize] += 1;
        counts.handed_logs += u64::from(code == 3 && o >= u64::from(record[5]));
    }
    if answer.refusal == 19 {
        counts.held_unset += reference::held(record, s, o, 2 + 2 * k + (code - 8)).value;
    }
    Ok(())
}

/// A list run.
pub fn run(record: &[u8], list: &[u8], null: bool, counts: &mut Counts) -> Result<(), Difference> {
    let mut after = record.to_vec();
    let answer = reference::run(&mut after, list);
    let expected = Outcome {
        answer,
        written: after,
    };
    let got = library::run(record, list, null);
    let inputs = || format!("list {}, record {}", hex(list), hex(record));
    compare(&expected, got, outcome_text, "run", inputs)?;
    counts.add(Call::Run, answer.refusal);
    let accepted = list.get(5..).unwrap_or_default().chunks_exact(6);
    for command in accepted.take(answer.value as usize) {
        counts.handed_in_lists += u64::from(command[1] == 3 && command[4] >= record[5]);
        counts.deleted_in_lists += u64::from(matches!(command[1], 8 | 9));
    }
    let digits = answer.value.checked_ilog10().map_or(0, |log| log + 1);
    counts.ran[digits as usize] += 1;
    Ok(())
}

/// What a buffer of this length holds before a question.
fn buffer_before(length: usize) -> Vec<u8> {
    (0..length)
        .map(|at| (at as u8).wrapping_mul(59) ^ 0xC3)
        .collect()
}

/// A safety question with a buffer of the given length.
pub fn safety(
    record: &[u8],
    question: [u64; 4],
    length: usize,
    null: bool,
    counts: &mut Counts,
) -> Result<(), Difference> {
    let [trust, s, o, right] = question;
    let expected = reference::safety(record, trust, s, o, right, length);
    let before = buffer_before(length);
    let got = library::safety(record, question, &before, null);
    let answered = match &got {
        Ok(outcome) => safety_agrees(record, question, &before, expected, outcome),
        Err(fault) => Err(fault.clone()),
    };
    let commands = answered.map_err(|fault| Difference {
        call: "safety",
        inputs: format!(
            "trust {trust:#x}, s {s}, o {o}, right {right}, buffer of {length} bytes, record {}",
            hex(record)
        ),
        reference: format!("{expected:?}"),
        library: match &got {
            Ok(outcome) => format!("{fault}: {}", outcome_text(outcome)),
            Err(_) => fault,
        },
    })?;
    count_safety(expected, commands, counts);
    Ok(())
}

/// A list cut to its first commands, of which it has so many.
pub fn first_commands(list: &[u8], count: usize) -> Vec<u8> {
    let length = 6 * count;
    let mut shorter = list[..5 + length].to_vec();
    shorter[1..5].copy_from_slice(&(length as u32).to_be_bytes());
    shorter
}

fn count_safety(expected: Safety, commands: usize, counts: &mut Counts) {
    match expected {
        Safety::Refused(refusal) => counts.add(Call::Safety, refusal),
        Safety::Safe => {
            counts.add(Call::Safety, 0);
            counts.safe += 1;
        }
        Safety::Leaks => {
            counts.add(Call::Safety, 0);
            counts.leaks[commands] += 1;
        }
    }
}

/// Whether a safety answer is the expected one, with the bytes it may have; the number of commands of a leak, or
/// what is wrong in words.
fn safety_agrees(
    record: &[u8],
    question: [u64; 4],
    before: &[u8],
    expected: Safety,
    outcome: &Outcome,
) -> Result<usize, String> {
    let Answer { refusal, value } = outcome.answer;
    let given = match (refusal, value) {
        (0, 0) => Safety::Safe,
        (0, _) => Safety::Leaks,
        (_, 0) => Safety::Refused(refusal),
        _ => return Err(String::from("a refusal with a value")),
    };
    if given != expected {
        return Err(String::from("another answer"));
    }
    let commands = if given == Safety::Leaks { value - 1 } else { 0 };
    let list_length = match given {
        Safety::Leaks => commands.saturating_mul(6).saturating_add(5) as usize,
        _ => 0,
    };
    if list_length > before.len() || outcome.written[list_length..] != before[list_length..] {
        return Err(String::from("wrote outside the list"));
    }
    if given == Safety::Leaks {
        let [trust, s, o, right] = question;
        let list = &outcome.written[..list_length];
        let run = leaks_by(record, trust, s, o, right, list)?;
        if run as u64 != commands {
            return Err(String::from("another number of commands than the list has"));
        }
        let before_last = run.checked_sub(1).map(|count| first_commands(list, count));
        if before_last.is_some_and(|list| leaks_by(record, trust, s, o, right, &list).is_ok()) {
            return Err(String::from("the right is held before the last command"));
        }
    }
    Ok(commands as usize)
}
