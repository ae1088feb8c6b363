//! Windows that show a history (Manual 9). Entries are put into the library's window and into the second
//! implementation, and after each of them the answer, all bytes and the counts of all numbers are compared.

use reference::{WINDOW_SIZE, Window};

use crate::check::{Difference, compare, hex, outcome_text};
use crate::count_windows::Windows;
use crate::forged;
use crate::library::{self, Outcome};
use crate::random::Random;

/// The subject numbers are those below this one.
pub const NUMBERS: u64 = 64;

/// Numbers that are refused; several are subject numbers modulo a width of bits.
pub const REFUSED_NUMBERS: [u64; 10] = [
    64,
    65,
    127,
    128,
    255,
    256,
    (1 << 32) + 5,
    1 << 63,
    u64::MAX - 63,
    u64::MAX,
];

/// Outcomes of refused commands besides 1 to 19; several are 0 modulo a width of bits.
const OTHER_OUTCOMES: [u64; 8] = [20, 64, 255, 256, 65_536, 1 << 32, 1 << 63, u64::MAX];

/// How many entries the histories of each shape take at least.
const LENGTHS: [usize; 4] = [1_100, 1_300, 1_600, 3_000];

/// How the entries of a history are drawn.
#[derive(Clone, Copy)]
enum Shape {
    /// Any numbers, as many refused as accepted.
    Mixed,
    /// Long runs of one number, all refused or all accepted.
    Runs,
    /// Stretches of all kinds, short and long.
    Stretches,
}

/// Some entries in a row, of one number or of any, so many in eight of them refused.
struct Stretch {
    entries: u64,
    number: Option<u64>,
    refused_in_eight: u64,
}

impl Shape {
    fn stretch(self, random: &mut Random) -> Stretch {
        let any = random.below(NUMBERS);
        let number = Some(random.pick(&[0, NUMBERS - 1, any, any]));
        match self {
            Shape::Mixed => Stretch {
                entries: 100,
                number: None,
                refused_in_eight: 4,
            },
            // Long enough that the window has no other entries, although some are not taken.
            Shape::Runs => Stretch {
                entries: 320 + random.below(300),
                number,
                refused_in_eight: random.pick(&[8, 8, 0]),
            },
            Shape::Stretches => Stretch {
                entries: random.pick(&[1, 2, 10, 60, 150, 320]),
                number: random.pick(&[number, None]),
                refused_in_eight: random.pick(&[0, 1, 4, 7, 8]),
            },
        }
    }
}

impl Stretch {
    /// The initiator and the outcome of the next entry; one in eight has an initiator that is refused.
    fn entry(&self, random: &mut Random) -> [u64; 2] {
        let number = self.number.unwrap_or_else(|| random.below(NUMBERS));
        let initiator = if random.one_in(8) {
            refused_number(random)
        } else {
            number
        };
        let outcome = if random.below(8) < self.refused_in_eight {
            refused_outcome(random)
        } else {
            0
        };
        [initiator, outcome]
    }
}

/// A number that is refused: one of a list, or a subject number with a higher bit besides.
pub fn refused_number(random: &mut Random) -> u64 {
    let bit = 6 + random.below(58);
    match random.below(2) {
        0 => random.pick(&REFUSED_NUMBERS),
        _ => random.below(NUMBERS) + (1 << bit),
    }
}

/// The outcome of a refused command.
pub fn refused_outcome(random: &mut Random) -> u64 {
    match random.below(4) {
        0 => random.pick(&OTHER_OUTCOMES),
        1 => 1 << random.below(64),
        _ => 1 + random.below(19),
    }
}

/// Histories of all shapes and lengths, and forged windows.
pub fn all(random: &mut Random, counts: &mut Windows) -> Result<(), Difference> {
    for shape in [Shape::Mixed, Shape::Runs, Shape::Stretches] {
        for length in LENGTHS {
            history(shape, length, random, counts)?;
        }
    }
    forged::all(random, counts)
}

/// A history of at least so many entries that were taken. It begins on bytes that are no window.
fn history(
    shape: Shape,
    length: usize,
    random: &mut Random,
    counts: &mut Windows,
) -> Result<(), Difference> {
    let mut window = emptied(&random.bytes(WINDOW_SIZE), false, counts)?;
    let mut history = Window::new();
    read_all(&window, &history, random, counts)?;
    while history.entries() < length {
        let stretch = shape.stretch(random);
        for _ in 0..stretch.entries {
            let entry = stretch.entry(random);
            put(&mut window, &mut history, entry, counts)?;
            read_all(&window, &history, random, counts)?;
        }
    }
    counts.longest = counts.longest.max(history.entries());
    Ok(())
}

/// Empties a window; bytes of another length have to stay as they are. The bytes after that.
pub fn emptied(window: &[u8], null: bool, counts: &mut Windows) -> Result<Vec<u8>, Difference> {
    let expected = if window.len() == WINDOW_SIZE {
        Window::new().bytes().to_vec()
    } else {
        window.to_vec()
    };
    let got = library::window_empty(window, null);
    let text = |bytes: &Vec<u8>| format!("bytes after {}", hex(bytes));
    let inputs = || format!("window {}", hex(window));
    compare(&expected, got, text, "window_empty", inputs)?;
    counts.emptied += 1;
    Ok(expected)
}

/// One more entry of a history.
fn put(
    window: &mut Vec<u8>,
    history: &mut Window,
    entry: [u64; 2],
    counts: &mut Windows,
) -> Result<(), Difference> {
    let before = history.entries();
    let answer = history.put(entry[0], entry[1]);
    let expected = Outcome {
        answer,
        written: history.bytes().to_vec(),
    };
    let got = library::window_put(window, entry, false);
    let inputs = || {
        format!(
            "initiator, outcome {entry:?}, after {before} entries, window {}",
            hex(window)
        )
    };
    compare(&expected, got, outcome_text, "window_put", inputs)?;
    *window = expected.written;
    counts.put.add(answer.refusal);
    counts.taken += u64::from(answer.refusal == 0);
    Ok(())
}

/// The counts of all numbers, and of some that are refused.
fn read_all(
    window: &[u8],
    history: &Window,
    random: &mut Random,
    counts: &mut Windows,
) -> Result<(), Difference> {
    let refused = [
        NUMBERS,
        random.pick(&REFUSED_NUMBERS),
        refused_number(random),
    ];
    for number in (0..NUMBERS).chain(refused) {
        read(window, history, number, counts)?;
    }
    Ok(())
}

/// The count of a number of a history.
fn read(
    window: &[u8],
    history: &Window,
    number: u64,
    counts: &mut Windows,
) -> Result<(), Difference> {
    let expected = history.count(number);
    let got = library::window_count(window, number, false);
    let inputs = || {
        let entries = history.entries();
        format!(
            "number {number}, after {entries} entries, window {}",
            hex(window)
        )
    };
    compare(&expected, got, |a| format!("{a:?}"), "window_count", inputs)?;
    counts.counted.add(expected.refusal);
    counts.read += u64::from(expected.refusal == 0);
    counts.full += u64::from(expected.value == 256);
    Ok(())
}
