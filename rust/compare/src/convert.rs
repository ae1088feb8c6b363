//! The two conversions: of valid records and of all others, with outputs of all lengths, and there and back.

use std::fmt;

use reference::{Answer, to_version_1, to_version_2};

use crate::check::{Difference, compare, hex, outcome_text};
use crate::count::{Call, Counts};
use crate::length::{LENGTHS, Lengths};
use crate::library::{self, Outcome};
use crate::matrix::{
    VERSIONS, cell, existing_columns, existing_subjects, other_version, record_bytes, rights, set,
    sizes,
};
use crate::random::Random;

/// What the conversions of records of one version gave, besides answers and refusals.
#[derive(Default)]
pub struct Conversions {
    /// Inputs by the wanted version and by how long the output is.
    outputs: [Lengths; VERSIONS.len()],
    /// Refusals by 18 where the output is long enough for the new record, and where 15 holds as well.
    high: [u64; 2],
    /// Records converted to the other version and back.
    there_and_back: u64,
}

impl Conversions {
    /// What never occurred and should have, in words, for records of a version.
    pub fn missing(&self, version: u8) -> Vec<String> {
        let mut missing = Vec::new();
        for (wanted, outputs) in VERSIONS.iter().zip(&self.outputs) {
            missing.extend(outputs.missing(&format!("to_version_{wanted}: an output")));
        }
        let [alone, with_15] = self.high;
        let counts = [
            ("a record converted there and back", self.there_and_back),
            ("to_version_1: 18 where 15 does not hold", alone),
            ("to_version_1: 18 where 15 holds too", with_15),
        ];
        // A record of version 1 never gets 18.
        let due = if version == 1 { &counts[..1] } else { &counts };
        let never = due.iter().filter(|(_, count)| *count == 0);
        missing.extend(never.map(|(what, _)| String::from(*what)));
        missing
    }
}

impl fmt::Display for Conversions {
    fn fmt(&self, f: &mut fmt::Formatter<'_>) -> fmt::Result {
        writeln!(
            f,
            "outputs beside the new record:{} converted there and back {}",
            Lengths::text(&self.outputs),
            self.there_and_back
        )?;
        let [alone, with_15] = self.high;
        writeln!(
            f,
            "refused by 18 where 15 does not hold {alone}, where 15 holds too {with_15}"
        )
    }
}

/// The bytes that a record has in a version, by its n and p where it has them.
fn new_bytes(record: &[u8], wanted: u8) -> usize {
    let (n, p) = if record.len() < 7 {
        (1, 0)
    } else {
        sizes(record)
    };
    record_bytes(wanted, n, p)
}

/// One conversion, with an output that has these bytes before; the new record, if there is one.
fn ask(
    record: &[u8],
    wanted: u8,
    before: &[u8],
    null: bool,
    counts: &mut Counts,
) -> Result<Option<Vec<u8>>, Difference> {
    let mut written = before.to_vec();
    let (call, answer) = match wanted {
        1 => (Call::ToVersion1, to_version_1(record, &mut written)),
        _ => (Call::ToVersion2, to_version_2(record, &mut written)),
    };
    let expected = Outcome { answer, written };
    let got = library::convert(record, wanted, before, null);
    let inputs = || format!("output {}, record {}", hex(before), hex(record));
    compare(&expected, got, outcome_text, call.name(), inputs)?;
    counts.add(call, answer.refusal);
    if answer.refusal == 18 {
        let is_short = before.len() < new_bytes(record, wanted);
        counts.conversions.high[usize::from(is_short)] += 1;
    }
    let mut new = expected.written;
    new.truncate(answer.value as usize);
    Ok((answer.refusal == 0).then_some(new))
}

/// Both conversions of any bytes. The output has random bytes before.
pub fn ask_both(
    record: &[u8],
    null: bool,
    random: &mut Random,
    counts: &mut Counts,
) -> Result<(), Difference> {
    for (at, wanted) in VERSIONS.into_iter().enumerate() {
        let outputs = &mut counts.conversions.outputs[at];
        let length = outputs.drawn(new_bytes(record, wanted), &LENGTHS, random);
        ask(record, wanted, &random.bytes(length), null, counts)?;
    }
    Ok(())
}

/// A record converted to the other version, with a look at every cell, and from there back by the library; nothing more where
/// it is refused.
pub fn there_and_back(
    record: &[u8],
    random: &mut Random,
    counts: &mut Counts,
) -> Result<(), Difference> {
    let (version, other) = (record[0], other_version(record[0]));
    let before = random.bytes(new_bytes(record, other));
    let Some(new) = ask(record, other, &before, false, counts)? else {
        return Ok(());
    };
    let shown = Ok(shows_the_same(record, &new));
    let text = |same: &bool| format!("the same n, p and cells in version {other}: {same}");
    let inputs = || format!("record {}, new record {}", hex(record), hex(&new));
    compare(&true, shown, text, "the new record", inputs)?;
    let back = library::convert(&new, version, &random.bytes(record.len()), false);
    let answer = Answer {
        refusal: 0,
        value: record.len() as u64,
    };
    let written = record.to_vec();
    let expected = Outcome { answer, written };
    let inputs = || format!("new record {}", hex(&new));
    compare(&expected, back, outcome_text, "there and back", inputs)?;
    counts.conversions.there_and_back += 1;
    Ok(())
}

/// Whether a new record is of the other version than an old one, with the same n, p and cells.
fn shows_the_same(old: &[u8], new: &[u8]) -> bool {
    let (n, p) = sizes(old);
    let mut places = (0..n).flat_map(|row| (0..n + p).map(move |column| (row, column)));
    new[0] == other_version(old[0])
        && sizes(new) == (n, p)
        && places.all(|(row, column)| cell(old, row, column) == cell(new, row, column))
}

/// Both conversions of a valid record of version 2 with one more right of those that version 1 has not, over a name that
/// exists.
pub fn ask_with_high_right(
    record: &[u8],
    random: &mut Random,
    counts: &mut Counts,
) -> Result<(), Difference> {
    let mut record = record.to_vec();
    let row = random.pick(&existing_subjects(&record));
    let column = random.pick(&existing_columns(&record));
    let code = rights(1) + random.below(rights(2) - rights(1));
    set(&mut record, row, column, code);
    ask_both(&record, false, random, counts)
}
