//! All sides on the same seeded inputs, before anything is measured. A difference ends the program.

use std::fmt::Debug;

use crate::lists::{accepted_commands, encode, likely_command};
use crate::numbers::Numbers;
use crate::sides::{Calls, LIBRARY, PLAIN, SSE2};
use crate::size::{Size, VERSIONS, largest, sizes};
use crate::stations::{any_record, damage};
use crate::windows::{WINDOW_SIZE, compared_entry};

/// The number of seeded records, half of them of each version.
pub const RECORDS: u64 = 8000;

/// The entries that are put into the seeded window.
pub const ENTRIES: usize = 50_000;

/// Compares all calls: the eight on every record, and those of the window after each entry.
pub fn compare_all() {
    compare_records();
    compare_window();
}

/// Compares the eight calls on every record.
fn compare_records() {
    for seed in 0..RECORDS {
        let mut numbers = Numbers(seed);
        let size = any_size(&mut numbers);
        let mut record = any_record(&mut numbers, size);
        if numbers.once_in(4) {
            damage(&mut numbers, &mut record);
        }
        compare_record(&mut numbers, seed, &record, size);
    }
}

/// A size that is measured, a small one, or any, of one version or the other; of the last a few are above the limits by one or two.
fn any_size(numbers: &mut Numbers) -> Size {
    let version = VERSIONS[numbers.below(2)];
    let (subjects, plain) = match numbers.below(8) {
        place @ 0..3 => return sizes(version)[place],
        3..5 => (8, 7),
        _ => (largest(version).n + 2, largest(version).p + 2),
    };
    Size {
        version,
        n: 1 + numbers.below(subjects),
        p: numbers.below(plain + 1),
    }
}

/// The Rust sides with their names.
const RUST: [(&str, Calls); 2] = [("plain Rust", PLAIN), ("SSE2 Rust", SSE2)];

/// Ends the program where a Rust side answers other than the library.
fn same<T: PartialEq + Debug>(seed: u64, call: &str, answer: impl Fn(Calls) -> T) {
    let library = answer(LIBRARY);
    for (side, calls) in RUST {
        let rust = answer(calls);
        assert!(
            library == rust,
            "{call} differs at seed {seed}: library {library:?}, {side} {rust:?}"
        );
    }
}

/// Every call on one record with several numbers.
fn compare_record(numbers: &mut Numbers, seed: u64, record: &[u8], size: Size) {
    same(seed, "valid", |calls| (calls.valid)(record));
    for _ in 0..4 {
        let s = numbers.below(size.n + 1) as u64;
        let o = numbers.below(size.columns() + 1) as u64;
        let right = numbers.below(2 * size.basics() + 3) as u64;
        same(seed, "held", |calls| (calls.held)(record, s, o, right));
        compare_safety(numbers, seed, record, size, (s, o, right));
    }
    for _ in 0..13 {
        compare_command(numbers, seed, record);
    }
    compare_conversions(numbers, seed, record, size);
    let mut commands = if (PLAIN.valid)(record) {
        accepted_commands(numbers, record, 13)
    } else {
        Vec::new()
    };
    commands.push(any_fields(numbers));
    let mut list = encode(&commands);
    if numbers.once_in(4) {
        let place = numbers.below(list.len());
        list[place] ^= 1 << numbers.below(8);
    }
    same(seed, "run", |calls| {
        changed(record, |copy| (calls.run)(copy, &list))
    });
    compare_first_held(numbers, seed, record, size, &list);
}

/// The list searched for several rights, most of them such as its commands give, each with a copy that is as long as the record, longer, or
/// too short. What stands in the record's length of it after an answer is left free; else no byte of it may change.
fn compare_first_held(numbers: &mut Numbers, seed: u64, record: &[u8], size: Size, list: &[u8]) {
    let length = record.len();
    for _ in 0..4 {
        let question = asked_of_list(numbers, size, list);
        let room = match numbers.below(8) {
            0 => numbers.below(length + 1),
            1 => length + numbers.below(20),
            _ => length,
        };
        same(seed, "first_held", |calls| {
            let mut copy = vec![0xEE; room];
            let answer = (calls.first_held)(record, list, question, &mut copy);
            let free = if answer.0 == 0 { length } else { 0 };
            let kept = copy[free..].iter().all(|&byte| byte == 0xEE);
            assert!(kept, "first_held changed its copy at seed {seed}");
            answer
        });
    }
}

/// A subject, a column and a right: of a command of the list that names all three, or any, sometimes beyond the record.
fn asked_of_list(numbers: &mut Numbers, size: Size, list: &[u8]) -> [u64; 3] {
    let commands = list.get(5..).unwrap_or_default().as_chunks::<6>().0;
    let command = commands.get(numbers.below(commands.len().max(1)));
    match command {
        Some([_, code, _, s, o, k]) if !numbers.once_in(4) => {
            let right = match code {
                1 | 4 | 8 => 2 + 2 * u64::from(*k),
                2 | 5 | 9 => 3 + 2 * u64::from(*k),
                6 => 1,
                _ => 0,
            };
            [u64::from(*s), u64::from(*o), right]
        }
        _ => [size.n + 1, size.columns() + 1, 2 * size.basics() + 3]
            .map(|bound| numbers.below(bound) as u64),
    }
}

/// Both conversions, each with an output that is as long as the new record, longer, or too short.
fn compare_conversions(numbers: &mut Numbers, seed: u64, record: &[u8], size: Size) {
    for version in VERSIONS {
        let bytes = size.in_version(version).record_bytes();
        let room = match numbers.below(4) {
            0 => bytes - 1 - numbers.below(bytes),
            1 => bytes + numbers.below(20),
            _ => bytes,
        };
        same(seed, "conversion", |calls| {
            let mut out = vec![0xEE; room];
            let call = [calls.to_version_1, calls.to_version_2][version - 1];
            (call(record, &mut out), out)
        });
    }
}

/// The calls on one window, which is emptied first. After each entry all sides have the same bytes, and the next one is put
/// into these.
fn compare_window() {
    let seed = RECORDS;
    let mut numbers = Numbers(seed);
    let mut window: Vec<u8> = (0..WINDOW_SIZE).map(|_| numbers.bits() as u8).collect();
    same(seed, "window_empty", |calls| emptied(calls, &window));
    window = emptied(LIBRARY, &window);
    for place in 0..ENTRIES {
        let [i, outcome] = compared_entry(&mut numbers, place);
        same(seed, "window_put", |calls| {
            changed(&window, |copy| (calls.window_put)(copy, i, outcome))
        });
        (LIBRARY.window_put)(&mut window, i, outcome);
        for number in [i, numbers.below(66) as u64] {
            same(seed, "window_count", |calls| {
                (calls.window_count)(&window, number)
            });
        }
    }
}

/// The window after it was emptied.
fn emptied(calls: Calls, window: &[u8]) -> Vec<u8> {
    let mut copy = window.to_vec();
    (calls.window_empty)(&mut copy);
    copy
}

/// Five fields, near the bounds of small records as often as anywhere, and of either version's basic rights.
fn any_fields(numbers: &mut Numbers) -> [u64; 5] {
    let bound = if numbers.once_in(2) { 16 } else { 256 };
    let basics = if numbers.once_in(2) { 8 } else { 17 };
    [16, bound, bound, bound, basics].map(|bound| numbers.below(bound) as u64)
}

/// One command, of the code's kinds or any.
fn compare_command(numbers: &mut Numbers, seed: u64, record: &[u8]) {
    let code = 1 + numbers.below(13);
    let command = if (PLAIN.valid)(record) && !numbers.once_in(4) {
        likely_command(numbers, record, code)
    } else {
        any_fields(numbers)
    };
    same(seed, "command", |calls| {
        changed(record, |copy| (calls.command)(copy, command))
    });
}

/// The answer of a call that may change the record, and the record after it.
fn changed(record: &[u8], call: impl Fn(&mut [u8]) -> (u64, u64)) -> ((u64, u64), Vec<u8>) {
    let mut copy = record.to_vec();
    (call(&mut copy), copy)
}

/// A question on all sides. Which list a leak writes is left free, so each side's list is tried.
fn compare_safety(
    numbers: &mut Numbers,
    seed: u64,
    record: &[u8],
    size: Size,
    (s, o, right): (u64, u64, u64),
) {
    let (n, within) = (size.n, size.all());
    let trust = match numbers.below(5) {
        0 => within,
        1 => within & !(1 << numbers.below(n)),
        2 => numbers.bits() & within,
        3 => within | 1 << numbers.below(64),
        _ => (numbers.bits() | numbers.bits()) & within,
    };
    let room = 5 + 6 * (n + 2) - usize::from(numbers.once_in(16));
    same(seed, "safety", |calls| {
        let mut out = vec![0xEE; room];
        let answer = (calls.safety)(record, trust, s, o, right, &mut out);
        assert!(
            list_fits(record, trust, (s, o, right), answer.1, &out),
            "a list of safety is wrong at seed {seed}: trust {trust:x}, {s} {o} {right}, {out:?}"
        );
        (answer.0, answer.1 != 0)
    });
}

/// Whether a buffer holds what an answer says: nothing, or a list by untrusted subjects after which the right is held.
fn list_fits(
    record: &[u8],
    trust: u64,
    (s, o, right): (u64, u64, u64),
    value: u64,
    out: &[u8],
) -> bool {
    let written = match value {
        0 => 0,
        _ => 5 + 6 * (value as usize - 1),
    };
    let (list, rest) = out.split_at(written);
    if rest.iter().any(|&byte| byte != 0xEE) {
        return false;
    }
    if value == 0 {
        return true;
    }
    let mut after = record.to_vec();
    let untrusted = list[5..].chunks(6).all(|c| trust >> c[2] & 1 == 0);
    untrusted
        && (PLAIN.run)(&mut after, list) == (0, value - 1)
        && (PLAIN.held)(&after, s, o, right) == (0, 1)
}
