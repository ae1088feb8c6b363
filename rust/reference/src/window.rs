//! The window of the last 256 entries (Manual 9). The whole history is kept here, and each answer is worked
//! out from it anew.

use crate::calls::Answer;

/// How many bytes a window has (Manual 9): the places, the counts and the number of entries.
pub const WINDOW_SIZE: usize = 385;

/// How many entries are counted, over all initiators together.
const PLACES: usize = 256;

/// The subject numbers are those below this one.
const NUMBERS: usize = 64;

/// One entry of the history, as it was given.
#[derive(Clone, Copy, Debug)]
struct Entry {
    initiator: u64,
    outcome: u64,
}

/// All entries that were taken since the window was empty, the first one first.
#[derive(Clone, Debug, Default)]
pub struct Window {
    history: Vec<Entry>,
}

impl Window {
    /// The empty window: no entry was given yet.
    pub fn new() -> Window {
        Window {
            history: Vec::new(),
        }
    }

    /// One more entry (Manual 9). An initiator that is no subject number is answered 17, and the entry is
    /// not taken. Any outcome is taken.
    pub fn put(&mut self, initiator: u64, outcome: u64) -> Answer {
        if !is_number(initiator) {
            return Answer {
                refusal: 17,
                value: 0,
            };
        }
        self.history.push(Entry { initiator, outcome });
        Answer {
            refusal: 0,
            value: 0,
        }
    }

    /// How many of the last 256 entries are refused ones of this initiator (Manual 9), or 17 where it is no
    /// subject number.
    pub fn count(&self, number: u64) -> Answer {
        if !is_number(number) {
            return Answer {
                refusal: 17,
                value: 0,
            };
        }
        Answer {
            refusal: 0,
            value: self.refused(number) as u64,
        }
    }

    /// How many entries the whole history has, those that are no longer counted too.
    pub fn entries(&self) -> usize {
        self.history.len()
    }

    /// The bytes of a window that shows this history (Manual 9).
    pub fn bytes(&self) -> [u8; WINDOW_SIZE] {
        let mut bytes = [0; WINDOW_SIZE];
        for (m, entry) in self.history.iter().enumerate().skip(self.first()) {
            bytes[m % PLACES] = place(entry);
        }
        for i in 0..NUMBERS {
            // At most 256, so that two bytes are enough.
            let count = self.refused(i as u64) as u16;
            let at = PLACES + 2 * i;
            bytes[at..at + 2].copy_from_slice(&count.to_be_bytes());
        }
        bytes[WINDOW_SIZE - 1] = (self.history.len() % 256) as u8;
        bytes
    }

    /// The first of the last 256 entries, counted from 0; entry 0 while there are no more than 256.
    fn first(&self) -> usize {
        self.history.len().saturating_sub(PLACES)
    }

    /// How many refused entries of this initiator are among the last 256.
    fn refused(&self, number: u64) -> usize {
        let last = &self.history[self.first()..];
        let counted = |entry: &&Entry| entry.outcome != 0 && entry.initiator == number;
        last.iter().filter(counted).count()
    }
}

/// Whether this is one of the subject numbers, 0 to 63.
fn is_number(number: u64) -> bool {
    number < NUMBERS as u64
}

/// The byte of an entry: 00 where it was accepted, and else its initiator and 1 more, which is at most 64.
fn place(entry: &Entry) -> u8 {
    if entry.outcome == 0 {
        0
    } else {
        entry.initiator as u8 + 1
    }
}
