//! `first_held`: on lists drawn for a run, with questions about what their commands give and take, and on lists in which a right comes
//! and goes.

use reference::{Answer, Station, read_list, write_list};

use crate::check::{Difference, compare, first_commands, hex};
use crate::count::{Call, Counts};
use crate::facts::Facts;
use crate::inputs;
use crate::length::Length;
use crate::library;
use crate::matrix::{CONTROL, OWN, rights};
use crate::random::Random;

/// The lengths of copies: most of them are long enough.
const COPIES: [Length; 8] = [
    Length::Exact,
    Length::Exact,
    Length::Exact,
    Length::More,
    Length::More,
    Length::Zero,
    Length::OneLess,
    Length::Any,
];

/// How many answers there are to one that is also found by `run` and `held`.
const ANSWERS_TO_RUN: u64 = 4;

/// An input: s, o and the right are the question, and the copy is as it is before.
pub struct Asked<'a> {
    pub record: &'a [u8],
    pub list: &'a [u8],
    pub question: [u64; 3],
    pub copy: &'a [u8],
}

/// How a right comes and goes while the commands of a list are tried in turn.
pub struct Course {
    /// Whether it is held after the first 0, 1, 2 and more commands, up to the first that is refused.
    pub held: Vec<bool>,
    pub refused: bool,
    /// Whether it would be held at some time later if the refused commands were left out.
    pub held_past_refused: bool,
}

/// An input on the record of a station: a list, and a question that is likely for both. How the right comes and goes is counted.
pub fn ask(
    record: &[u8],
    station: &Station,
    list: &[u8],
    random: &mut Random,
    counts: &mut Counts,
) -> Result<(), Difference> {
    let question = question(station, list, random);
    ask_and_follow(record, station, list, question, random, counts)
}

/// The same on a record that was the station's before it was damaged.
pub fn ask_of_damaged(
    record: &[u8],
    station: &Station,
    list: &[u8],
    random: &mut Random,
    counts: &mut Counts,
) -> Result<(), Difference> {
    let question = question(station, list, random);
    ask_with_copy(record, list, question, random, counts)?;
    Ok(())
}

/// A list in which a right comes and goes, after so many other commands, on the valid record of a station. Nothing is asked where no such
/// right is found.
pub fn ask_coming_and_going(
    record: &[u8],
    station: &Station,
    (before, held_at_start): (u64, bool),
    random: &mut Random,
    counts: &mut Counts,
) -> Result<(), Difference> {
    match coming_and_going(station, before, held_at_start, random) {
        Some((list, question)) => ask_and_follow(record, station, &list, question, random, counts),
        None => Ok(()),
    }
}

fn ask_and_follow(
    record: &[u8],
    station: &Station,
    list: &[u8],
    question: [u64; 3],
    random: &mut Random,
    counts: &mut Counts,
) -> Result<(), Difference> {
    let answer = ask_with_copy(record, list, question, random, counts)?;
    if answer.refusal == 0 {
        counts.firsts.add_course(&course(station, list, question));
    }
    Ok(())
}

/// An input with a copy of some length and of random bytes. Some answers are also found by `run` and `held`.
fn ask_with_copy(
    record: &[u8],
    list: &[u8],
    question: [u64; 3],
    random: &mut Random,
    counts: &mut Counts,
) -> Result<Answer, Difference> {
    // A record without bytes is asked with copies as for one of a single byte.
    let needed = record.len().max(1);
    let length = counts.firsts.copies.drawn(needed, &COPIES, random);
    let asked = Asked {
        record,
        list,
        question,
        copy: &random.bytes(length),
    };
    let answer = check(&asked, random.one_in(2), counts)?;
    if answer.refusal == 0 && random.one_in(ANSWERS_TO_RUN) {
        check_by_run(&asked, answer.value)?;
        counts.firsts.by_run += 1;
    }
    Ok(answer)
}

/// An input in words.
fn inputs_text(asked: &Asked) -> String {
    let [s, o, right] = asked.question;
    format!(
        "s {s}, o {o}, right {right}, copy {}, list {}, record {}",
        hex(asked.copy),
        hex(asked.list),
        hex(asked.record)
    )
}

/// Both implementations on one input. `null` says to lend empty slices as NULL.
fn check(asked: &Asked, null: bool, counts: &mut Counts) -> Result<Answer, Difference> {
    let Asked {
        record,
        list,
        question,
        copy,
    } = *asked;
    let [s, o, right] = question;
    let expected = reference::first_held(record, list, s, o, right, copy.len());
    let got = library::first_held(record, list, question, copy, null);
    let text = |answer: &Answer| format!("{answer:?}");
    compare(&expected, got, text, "first_held", || inputs_text(asked))?;
    counts.add(Call::FirstHeld, expected.refusal);
    match expected.refusal {
        0 => counts.firsts.add_value(expected.value),
        refusal => counts.firsts.add_refusal(asked, refusal),
    }
    Ok(expected)
}

/// The answer beside the library's own `run` and `held`: after the commands that it says the right is held, and after one less it is not;
/// where it says never, the right is not held after all that are accepted.
fn check_by_run(asked: &Asked, value: u64) -> Result<(), Difference> {
    let due = match value.checked_sub(1) {
        None => library::run(asked.record, asked.list, false)
            .map(|outcome| vec![(outcome.answer.value, 0)]),
        Some(0) => Ok(vec![(0, 1)]),
        Some(m) => Ok(vec![(m, 1), (m - 1, 0)]),
    };
    let found = due.clone().and_then(|due| {
        let counts = due.iter().map(|(m, _)| Ok((*m, held_after(asked, *m)?)));
        counts.collect()
    });
    let expected = due.unwrap_or_default();
    let text = |found: &Vec<(u64, u64)>| format!("commands, and held after them: {found:?}");
    let call = "first_held beside run and held";
    compare(&expected, found, text, call, || inputs_text(asked))
}

/// Whether the right is held after the first commands of the list, by `run` and `held`: 1 or 0. All of them have to be accepted.
fn held_after(asked: &Asked, m: u64) -> Result<u64, String> {
    let list = first_commands(asked.list, m as usize);
    let run = library::run(asked.record, &list, false)?;
    let accepted = Answer {
        refusal: 0,
        value: m,
    };
    if run.answer != accepted {
        return Err(format!("the first {m} commands: {:?}", run.answer));
    }
    Ok(library::held(&run.written, asked.question, false)?.value)
}

/// Whether the right of a question, which is in range, is held.
fn is_held(station: &Station, [s, o, right]: [u64; 3]) -> bool {
    let right = station.version.right(right).expect("the right is in range");
    station.state.held(s, station.name(o), right)
}

/// How the right of a question comes and goes. List and question are of the right form and in range.
fn course(station: &Station, list: &[u8], question: [u64; 3]) -> Course {
    let mut station = station.clone();
    let mut course = Course {
        held: vec![is_held(&station, question)],
        refused: false,
        held_past_refused: false,
    };
    for fields in read_list(list).expect("the list has the right form") {
        course.refused |= !inputs::step(&mut station, fields);
        let held = is_held(&station, question);
        if course.refused {
            course.held_past_refused |= held;
        } else {
            course.held.push(held);
        }
    }
    course
}

/// s, o and a right: of what a command of the list gives or takes, or as for `held`; sometimes one of them is made extreme.
fn question(station: &Station, list: &[u8], random: &mut Random) -> [u64; 3] {
    let commands = list.get(5..).unwrap_or_default().chunks_exact(6);
    if commands.len() == 0 || random.one_in(3) {
        return inputs::held_question(station, random);
    }
    let at = random.below(commands.len() as u64) as usize;
    let fields = commands.skip(at).flatten().copied().map(u64::from);
    let fields: Vec<u64> = fields.skip(1).take(5).collect();
    let [code, i, s, o, k] = fields[..] else {
        unreachable!("a command of a list has six bytes");
    };
    let asked = changed_by(station, [code, i, s, o, k], random);
    inputs::sometimes_extreme(station, asked, random)
}

/// The right that a command gives or takes, or another that is held by it.
fn changed_by(station: &Station, [code, i, s, o, k]: [u64; 5], random: &mut Random) -> [u64; 3] {
    let [s, o, right] = match code {
        1 | 4 | 8 => [s, o, 2 + 2 * k],
        2 | 5 | 9 => [s, o, 3 + 2 * k],
        6 => [s, o, CONTROL],
        10 | 11 => [i, o, OWN],
        12 if random.one_in(2) => [s, s, CONTROL],
        12 => [i, s, OWN],
        // The initiator inherits what s owns, which may be any column.
        13 => [i, random.below(station.n + station.p), OWN],
        _ => [s, o, OWN],
    };
    let starred = right > CONTROL && right % 2 == 1;
    let by_it = match right {
        OWN => 2 + random.below(rights(station.version.byte()) - 2),
        _ => right - u64::from(starred),
    };
    [s, o, random.pick(&[right, right, by_it])]
}

/// A list in which a basic right is given, taken and given again, after so many grants of other rights, if there are such; sometimes a
/// delete comes first, which is refused where the right is not set. The other grants take nothing, so that all of them are accepted.
fn coming_and_going(
    station: &Station,
    before: u64,
    held_at_start: bool,
    random: &mut Random,
) -> Option<(Vec<u8>, [u64; 3])> {
    let facts = Facts::of(station);
    let codes = if held_at_start { [8, 9] } else { [4, 5] };
    let mut likely = (0..8).filter_map(|_| facts.likely_command(random.pick(&codes), random));
    let of_right = |[code, _, s, o, k]: [u64; 5]| [s, o, 2 + 2 * k + code % 4];
    let given = likely.find(|command| is_held(station, of_right(*command)) == held_at_start)?;
    let [code, i, s, o, k] = given;
    let (grant, delete) = ([4 + code % 4, i, s, o, k], [8 + code % 4, i, s, o, k]);
    let grants = (0..8).filter_map(|_| facts.likely_command(random.pick(&[4, 5]), random));
    let others: Vec<[u64; 5]> = grants.filter(|other| other[2..4] != [s, o]).collect();
    let mut commands: Vec<[u64; 5]> = Vec::new();
    commands.extend(others.iter().cycle().take(before as usize));
    if random.one_in(4) {
        commands.push(delete);
    }
    commands.extend([grant, delete]);
    commands.extend(&others[..others.len() / 2]);
    commands.push(grant);
    let bytes = commands
        .iter()
        .map(|fields| fields.map(|field| field as u8));
    let bytes: Vec<[u8; 5]> = bytes.collect();
    Some((write_list(&bytes), of_right(given)))
}
