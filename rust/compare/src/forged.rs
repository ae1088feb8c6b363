//! Forged windows: bytes of any length and content. Manual 9.2 leaves their counts free, and what an entry makes of
//! those of a window's length. Compared are the refusals and the bytes that have to stay.

use reference::{Answer, WINDOW_SIZE, Window};

use crate::check::{Difference, compare, hex, outcome_text};
use crate::count_windows::Windows;
use crate::library::{self, Outcome};
use crate::random::Random;
use crate::window::{NUMBERS, REFUSED_NUMBERS, emptied, refused_number, refused_outcome};

/// Every length up to this one occurs.
pub const LONGEST: usize = 800;

/// The content of a forged window of some length.
type Content = fn(usize, &mut Random) -> Vec<u8>;

const CONTENTS: [Content; 4] = [zeros, ones, any_bytes, flipped];

fn zeros(length: usize, _: &mut Random) -> Vec<u8> {
    vec![0; length]
}

fn ones(length: usize, _: &mut Random) -> Vec<u8> {
    vec![0xFF; length]
}

fn any_bytes(length: usize, random: &mut Random) -> Vec<u8> {
    random.bytes(length)
}

/// A window that shows a history, cut or filled up to the length, with some bits flipped.
fn flipped(length: usize, random: &mut Random) -> Vec<u8> {
    let mut history = Window::new();
    for _ in 0..random.below(600) {
        history.put(random.below(NUMBERS), random.below(2));
    }
    let mut bytes = history.bytes().to_vec();
    bytes.resize(length, 0);
    for _ in 0..1 + random.below(8) {
        let at = random.below(length as u64 + 1) as usize;
        if let Some(byte) = bytes.get_mut(at) {
            *byte ^= 1 << random.below(8);
        }
    }
    bytes
}

/// Every length with every content. Those of a window's length occur more often and get more entries, so that all of
/// their places are met.
pub fn all(random: &mut Random, counts: &mut Windows) -> Result<(), Difference> {
    for length in 0..=LONGEST {
        let (times, entries) = if length == WINDOW_SIZE {
            (30, 300)
        } else {
            (1, 3)
        };
        for _ in 0..times {
            for content in CONTENTS {
                ask(content(length, random), entries, random, counts)?;
            }
        }
    }
    Ok(())
}

/// All three calls on a forged window, with so many entries of subject numbers and as many of others.
fn ask(
    mut window: Vec<u8>,
    entries: usize,
    random: &mut Random,
    counts: &mut Windows,
) -> Result<(), Difference> {
    let null = random.one_in(2);
    counts.forged[window.len()] += 1;
    emptied(&window, null, counts)?;
    read_all(&window, null, random, counts)?;
    for _ in 0..entries {
        for initiator in [random.below(NUMBERS), refused_number(random)] {
            let refused = refused_outcome(random);
            let outcome = random.pick(&[0, refused]);
            put(&mut window, [initiator, outcome], null, counts)?;
        }
    }
    read_all(&window, null, random, counts)
}

/// One more entry. The bytes after it are left free where it is taken and they are of a window's length.
fn put(
    window: &mut Vec<u8>,
    entry: [u64; 2],
    null: bool,
    counts: &mut Windows,
) -> Result<(), Difference> {
    let answer = Window::new().put(entry[0], entry[1]);
    let free = answer.refusal == 0 && window.len() == WINDOW_SIZE;
    let got = library::window_put(window, entry, null);
    let written = match &got {
        Ok(outcome) if free => outcome.written.clone(),
        _ => window.clone(),
    };
    let expected = Outcome { answer, written };
    let inputs = || format!("initiator, outcome {entry:?}, window {}", hex(window));
    compare(&expected, got, outcome_text, "window_put", inputs)?;
    *window = expected.written;
    counts.put.add(answer.refusal);
    Ok(())
}

/// The counts of all numbers, and of some that are refused.
fn read_all(
    window: &[u8],
    null: bool,
    random: &mut Random,
    counts: &mut Windows,
) -> Result<(), Difference> {
    let numbers = (0..NUMBERS).chain(REFUSED_NUMBERS);
    for number in numbers.chain([refused_number(random)]) {
        read(window, number, null, counts)?;
    }
    Ok(())
}

/// The count of a number, which is free; with a refusal it is 0.
fn read(window: &[u8], number: u64, null: bool, counts: &mut Windows) -> Result<(), Difference> {
    let refusal = Window::new().count(number).refusal;
    let got = library::window_count(window, number, null);
    let value = match &got {
        Ok(answer) if refusal == 0 => answer.value,
        _ => 0,
    };
    let expected = Answer { refusal, value };
    let inputs = || format!("number {number}, window {}", hex(window));
    compare(&expected, got, |a| format!("{a:?}"), "window_count", inputs)?;
    counts.counted.add(refusal);
    Ok(())
}
