//! Which bytes are a window: every one that the library made, and none in which one byte of its entries or counts is another.

use crate::library::{WINDOW_NUMBERS, WINDOW_SIZE, Window};
use crate::tests::random::Numbers;
use crate::window_file::shows_entries;

#[test]
fn made_by_the_library() {
    let mut numbers = Numbers::new(1);
    for entries in [0, 1, 2, 255, 256, 257, 600] {
        let mut window = Window::new();
        for _ in 0..entries {
            let (initiator, outcome) = (numbers.below(WINDOW_NUMBERS), numbers.below(3));
            window.put(initiator, outcome).unwrap();
            assert!(shows_entries(window.as_bytes()));
        }
        let mut bytes = *window.as_bytes();
        for at in 0..WINDOW_SIZE - 1 {
            let change = 1 + numbers.below(255) as u8;
            bytes[at] ^= change;
            assert!(!shows_entries(&bytes), "byte {at} after {entries} entries");
            bytes[at] ^= change;
        }
    }
}
