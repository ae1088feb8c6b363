//! One round: a valid record of the next version and size, a small valid record and a damaged one, with inputs of all eight
//! calls on records; in some rounds also a record above the limits, the longest lists, rights that come late and all questions
//! of a small station.

use std::ops::Range;

use reference::{Station, read};

use crate::above::{REFUSED, record_above};
use crate::check::{self, Difference, hex};
use crate::convert;
use crate::count::{Counts, Versions};
use crate::damage::damage;
use crate::facts::Facts;
use crate::first;
use crate::generate::valid_record;
use crate::inputs;
use crate::matrix::{MOST_PLAIN, MOST_SUBJECTS, VERSIONS};
use crate::random::Random;
use crate::small::{self, Searches, not_valid};

/// How many rounds there are to one with a record above the limits, to one with the longest lists, and to one with all
/// questions of a small station.
const ROUNDS_TO_ABOVE: u64 = 4;
const ROUNDS_TO_LONGEST_LIST: u64 = 500;
const ROUNDS_TO_SMALL_STATION: u64 = 250;

/// How many rounds there are to one with a right that is held after hundreds of commands, and to one after thousands; and how
/// many commands come before the right, so that with those of the right they still are one list.
const ROUNDS_TO_HUNDREDS: u64 = 25;
const ROUNDS_TO_THOUSANDS: u64 = 100;
const HUNDREDS: Range<u64> = 100..999;
const THOUSANDS: Range<u64> = 1000..9990;

/// The version and the size of a round's record: in twice as many rounds as there are sizes, every size occurs in both
/// versions.
fn size_of_round(round: u64) -> (u8, u64, u64) {
    let versions = VERSIONS.len() as u64;
    let (version, size) = (round % versions, round / versions);
    let (n, p) = (size % MOST_SUBJECTS, size / MOST_SUBJECTS);
    (VERSIONS[version as usize], 1 + n, p % (MOST_PLAIN + 1))
}

/// A small size.
fn small_size(random: &mut Random) -> (u64, u64) {
    (1 + random.below(6), random.below(6))
}

/// Compares both implementations on the inputs of one round.
pub fn round(
    number: u64,
    random: &mut Random,
    searches: &mut Searches,
    versions: &mut Versions,
) -> Result<(), Difference> {
    let (version, n, p) = size_of_round(number);
    let large = valid_record(version, n, p, random);
    ask_of_valid(&large, random, versions.of(version))?;
    let version = random.pick(&VERSIONS);
    let (n, p) = small_size(random);
    let small = valid_record(version, n, p, random);
    ask_of_valid(&small, random, versions.of(version))?;
    let damaged = if random.one_in(4) { large } else { small };
    let counts = versions.of(damaged[0]);
    ask_of_damaged(damaged, random, counts)?;
    let version = random.pick(&VERSIONS);
    let counts = versions.of(version);
    if number.is_multiple_of(ROUNDS_TO_ABOVE) {
        ask_above(version, random, counts)?;
    }
    if number.is_multiple_of(ROUNDS_TO_LONGEST_LIST) {
        longest_list(version, random, counts)?;
    }
    if number.is_multiple_of(ROUNDS_TO_HUNDREDS) {
        late_right(version, HUNDREDS, random, counts)?;
    }
    if number.is_multiple_of(ROUNDS_TO_THOUSANDS) {
        late_right(version, THOUSANDS, random, counts)?;
    }
    if number.is_multiple_of(ROUNDS_TO_SMALL_STATION) {
        small::all_questions(version, random, searches, counts)?;
    }
    Ok(())
}

/// The station of a record that was built to be valid.
fn station_of(record: &[u8]) -> Result<Station, Difference> {
    read(record).map_err(|refusal| not_valid(record, refusal))
}

/// One input of each of the eight calls on a valid record, and more of some of them.
fn ask_of_valid(record: &[u8], random: &mut Random, counts: &mut Counts) -> Result<(), Difference> {
    let station = station_of(record)?;
    counts.add_size(station.n, station.p);
    ask_each(record, &station, random, counts)?;
    if random.one_in(2) {
        let (few, more) = (random.below(4), random.below(60));
        let right = (random.pick(&[few, few, more]), random.one_in(3));
        first::ask_coming_and_going(record, &station, right, random, counts)?;
    }
    convert::there_and_back(record, random, counts)?;
    if record[0] == 2 {
        convert::ask_with_high_right(record, random, counts)?;
    }
    Ok(())
}

/// One input of each of the eight calls on a record, drawn from its station.
fn ask_each(
    record: &[u8],
    station: &Station,
    random: &mut Random,
    counts: &mut Counts,
) -> Result<(), Difference> {
    check::valid(record, false, counts)?;
    let question = inputs::held_question(station, random);
    check::held(record, question, false, counts)?;
    let fields = inputs::command(station, &Facts::of(station), random);
    check::command(record, fields, false, counts)?;
    let list = inputs::list(station, random);
    check::run(record, &list, random.one_in(2), counts)?;
    first::ask(record, station, &list, random, counts)?;
    let question = inputs::safety_question(station, random);
    let length = inputs::buffer_length(station.n, random);
    check::safety(record, question, length, random.one_in(2), counts)?;
    convert::ask_both(record, random.one_in(2), random, counts)
}

/// One input of each of the eight calls on a whole record above the limits. All of them have to be refused for that,
/// whatever is asked.
fn ask_above(version: u8, random: &mut Random, counts: &mut Counts) -> Result<(), Difference> {
    let (record, station) = record_above(version, random);
    let others = counts.inputs_but(REFUSED);
    ask_each(&record, &station, random, counts)?;
    if counts.inputs_but(REFUSED) != others {
        let other = format!("a call gives another answer than refusal {REFUSED}");
        return Err(Difference {
            call: "a whole record above the limits",
            inputs: format!("record {}", hex(&record)),
            reference: other.clone(),
            library: other,
        });
    }
    counts.add_above(station.n, station.p);
    Ok(())
}

/// Inputs of the validity call, of the conversions, often of `first_held`, and of two others, on a record that was valid and
/// is damaged. What is asked of it was drawn from the record before, or is wrong too.
fn ask_of_damaged(
    mut record: Vec<u8>,
    random: &mut Random,
    counts: &mut Counts,
) -> Result<(), Difference> {
    let station = station_of(&record)?;
    damage(&mut record, random);
    let null = random.one_in(2);
    check::valid(&record, null, counts)?;
    convert::ask_both(&record, null, random, counts)?;
    if random.one_in(2) {
        let list = inputs::list(&station, random);
        first::ask_of_damaged(&record, &station, &list, random, counts)?;
    }
    for _ in 0..2 {
        match random.below(4) {
            0 => {
                let question = inputs::held_question(&station, random);
                check::held(&record, question, null, counts)?;
            }
            1 => {
                let fields = inputs::command(&station, &Facts::of(&station), random);
                check::command(&record, fields, null, counts)?;
            }
            2 => {
                let list = inputs::list(&station, random);
                check::run(&record, &list, null, counts)?;
            }
            _ => {
                let question = inputs::safety_question(&station, random);
                let length = inputs::buffer_length(station.n, random);
                check::safety(&record, question, length, null, counts)?;
            }
        }
    }
    Ok(())
}

/// A small valid record and its station.
fn small_station(version: u8, random: &mut Random) -> Result<(Vec<u8>, Station), Difference> {
    let (n, p) = small_size(random);
    let record = valid_record(version, n, p, random);
    let station = station_of(&record)?;
    Ok((record, station))
}

/// A list of about the most commands, on a small record, where the second implementation is fast.
fn longest_list(version: u8, random: &mut Random, counts: &mut Counts) -> Result<(), Difference> {
    let (record, station) = small_station(version, random)?;
    let list = inputs::longest_list(&station, random);
    check::run(&record, &list, false, counts)?;
    first::ask(&record, &station, &list, random, counts)
}

/// A right that comes late, after so many commands that there are hundreds or thousands of them, on a small record.
fn late_right(
    version: u8,
    before: Range<u64>,
    random: &mut Random,
    counts: &mut Counts,
) -> Result<(), Difference> {
    let (record, station) = small_station(version, random)?;
    let before = before.start + random.below(before.end - before.start);
    first::ask_coming_and_going(&record, &station, (before, false), random, counts)
}
