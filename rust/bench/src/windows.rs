//! Entries for windows, and the window that is measured.

use crate::numbers::Numbers;
use crate::plain;

/// The bytes of a window.
pub const WINDOW_SIZE: usize = 385;

/// The initiator and the outcome of an entry.
pub type Entry = [u64; 2];

/// Entries of any subject numbers, in random order, as many refused as accepted.
pub fn mixed_entries(numbers: &mut Numbers, count: usize) -> Vec<Entry> {
    let mut entry = || {
        let (initiator, refusal) = (numbers.below(64), 1 + numbers.below(16));
        [initiator, numbers.below(2) * refusal].map(|number| number as u64)
    };
    (0..count).map(|_| entry()).collect()
}

/// An entry of the window that is compared, by its place. In every second thousand all are refused and of one number, so that
/// its count becomes 256. Else they are of any numbers, among them some that have no count.
pub fn compared_entry(numbers: &mut Numbers, place: usize) -> Entry {
    match place / 1000 % 2 {
        0 => [
            numbers.below(66) as u64,
            numbers.below(2) as u64 * numbers.bits(),
        ],
        _ => [place as u64 / 1000 % 64, 1 + numbers.below(17) as u64],
    }
}

/// A window that these entries were put into.
pub fn window_of(entries: &[Entry]) -> Vec<u8> {
    let mut window = vec![0; WINDOW_SIZE];
    for &[initiator, outcome] in entries {
        plain::window_put(&mut window, initiator, outcome);
    }
    window
}
