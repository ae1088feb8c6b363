//! What the calls on windows gave.

use std::fmt;

use reference::WINDOW_SIZE;

use crate::forged;

/// How often a call was answered, and how often it was refused by 17, its one refusal.
#[derive(Default)]
pub struct Answers {
    answered: u64,
    refused: u64,
}

impl Answers {
    /// Counts one input by its refusal, 0 where it was answered.
    pub fn add(&mut self, refusal: u64) {
        if refusal == 0 {
            self.answered += 1;
        } else {
            self.refused += 1;
        }
    }

    fn inputs(&self) -> u64 {
        self.answered + self.refused
    }
}

/// The counts of all inputs of windows.
pub struct Windows {
    pub emptied: u64,
    pub put: Answers,
    pub counted: Answers,
    /// Entries taken into histories, and how many the longest history has.
    pub taken: u64,
    pub longest: usize,
    /// Counts read of windows that show a history, and those of them that were 256.
    pub read: u64,
    pub full: u64,
    /// Forged windows by their length.
    pub forged: Vec<u64>,
}

impl Windows {
    pub fn new() -> Windows {
        Windows {
            emptied: 0,
            put: Answers::default(),
            counted: Answers::default(),
            taken: 0,
            longest: 0,
            read: 0,
            full: 0,
            forged: vec![0; forged::LONGEST + 1],
        }
    }

    /// The number of inputs of the two calls that give an answer.
    pub fn inputs(&self) -> u64 {
        self.put.inputs() + self.counted.inputs()
    }

    /// What never occurred and should have, in words.
    pub fn missing(&self) -> Vec<String> {
        let counts = [
            ("window_put: an answer", self.put.answered),
            ("window_put: refusal 17", self.put.refused),
            ("window_count: an answer", self.counted.answered),
            ("window_count: refusal 17", self.counted.refused),
            ("window_count: 256", self.full),
        ];
        let never = counts.iter().filter(|(_, count)| *count == 0);
        never.map(|(what, _)| String::from(*what)).collect()
    }
}

impl fmt::Display for Windows {
    fn fmt(&self, f: &mut fmt::Formatter<'_>) -> fmt::Result {
        writeln!(f, "window_put: {} inputs", self.put.inputs())?;
        writeln!(
            f,
            "  taken into histories {}, the longest of {} entries; answered on forged windows {}",
            self.taken,
            self.longest,
            self.put.answered - self.taken
        )?;
        writeln!(f, "  refused: 17: {}", self.put.refused)?;
        writeln!(f, "window_count: {} inputs", self.counted.inputs())?;
        writeln!(
            f,
            "  read of histories {}, of these 256: {}; read of forged windows {}",
            self.read,
            self.full,
            self.counted.answered - self.read
        )?;
        writeln!(f, "  refused: 17: {}", self.counted.refused)?;
        writeln!(f, "window_empty: {} inputs", self.emptied)?;
        let of_lengths = |from: usize, to: usize| self.forged[from..to].iter().sum::<u64>();
        let lengths = self.forged.iter().filter(|count| **count > 0).count();
        writeln!(
            f,
            "forged windows: {} shorter than a window, {} of its length, {} longer; lengths: {lengths} of {}",
            of_lengths(0, WINDOW_SIZE),
            self.forged[WINDOW_SIZE],
            of_lengths(WINDOW_SIZE + 1, self.forged.len()),
            self.forged.len()
        )
    }
}
