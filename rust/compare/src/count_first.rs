//! What `first_held` gave, besides its refusals, on records of one version.

use std::fmt;

use reference::read_list;

use crate::first::{Asked, Course};
use crate::length::Lengths;
use crate::matrix::{rights, sizes};

/// The counts of its inputs.
#[derive(Default)]
pub struct Firsts {
    /// Answers by their value: 0, 1, and by the commands after which the right is first held: 1, 2 to 9, 10 to 99, 100 to 999, more.
    values: [u64; 7],
    /// Of the answers 0: all commands were accepted; one was refused; one was, and only past it the right would have been held.
    never: [u64; 3],
    /// Rights that are lost and held again, of those held at the start and of those held later.
    regained: [u64; 2],
    /// Refused by 15 where 16 does not hold, and where it does.
    short: [u64; 2],
    /// Refused by 7 where neither 15 nor 16 holds, where 15 alone does, 16 alone, and both.
    unfit: [u64; 4],
    /// Refused by 7 for s alone, o alone and the right alone: at its bound, and beyond.
    out_of_range: [[u64; 2]; 3],
    /// Refused by 1 to 5 where 15 or 16 holds too.
    of_record: u64,
    /// Answers that were also found by `run` and `held`.
    pub by_run: u64,
    /// The copies, beside the record.
    pub copies: Lengths,
}

impl Firsts {
    /// Counts which refusals hold besides the one that was given.
    pub fn add_refusal(&mut self, asked: &Asked, refusal: u64) {
        let is_short = asked.copy.len() < asked.record.len();
        let is_unformed = read_list(asked.list).is_err();
        match refusal {
            1..=5 => self.of_record += u64::from(is_short || is_unformed),
            7 => {
                self.unfit[usize::from(is_short) + 2 * usize::from(is_unformed)] += 1;
                self.add_out_of_range(asked);
            }
            15 => self.short[usize::from(is_unformed)] += 1,
            _ => (),
        }
    }

    /// Counts the number that is out of range, if it is one alone.
    fn add_out_of_range(&mut self, asked: &Asked) {
        let (n, p) = sizes(asked.record);
        let bounds = [n, n + p, rights(asked.record[0])];
        let out: Vec<usize> = (0..3)
            .filter(|at| asked.question[*at] >= bounds[*at])
            .collect();
        if let [at] = out[..] {
            self.out_of_range[at][usize::from(asked.question[at] > bounds[at])] += 1;
        }
    }

    /// Counts an answer by its value.
    pub fn add_value(&mut self, value: u64) {
        let place = match value {
            0..=2 => value as usize,
            _ => 3 + (value - 1).ilog10().min(3) as usize,
        };
        self.values[place] += 1;
    }

    /// Counts an answer by how the right comes and goes in the list.
    pub fn add_course(&mut self, course: &Course) {
        let first = course.held.iter().position(|held| *held);
        match first {
            None if course.held_past_refused => self.never[2] += 1,
            None => self.never[usize::from(course.refused)] += 1,
            Some(m) => {
                let mut after = course.held[m..].iter();
                let regained = after.any(|held| !held) && after.any(|held| *held);
                self.regained[usize::from(m > 0)] += u64::from(regained);
            }
        }
    }

    /// The counts with what they are of. All of it should occur.
    fn named(&self) -> [(&'static str, u64); 25] {
        let values = self.values;
        let [[s, s_beyond], [o, o_beyond], [right, right_beyond]] = self.out_of_range;
        [
            ("never held", values[0]),
            ("held at the start", values[1]),
            ("after 1 command", values[2]),
            ("after 2 to 9", values[3]),
            ("after 10 to 99", values[4]),
            ("after 100 to 999", values[5]),
            ("after 1,000 or more", values[6]),
            ("never, all commands accepted", self.never[0]),
            ("never, a command refused", self.never[1]),
            ("only past a refused command", self.never[2]),
            ("at the start, lost and held again", self.regained[0]),
            ("later, lost and held again", self.regained[1]),
            ("15 where 16 does not hold", self.short[0]),
            ("15 where 16 holds too", self.short[1]),
            ("7 where neither 15 nor 16 holds", self.unfit[0]),
            ("7 where 15 holds too", self.unfit[1]),
            ("7 where 16 holds too", self.unfit[2]),
            ("7 where both hold too", self.unfit[3]),
            ("7 for s at its bound", s),
            ("s beyond it", s_beyond),
            ("o at its bound", o),
            ("o beyond it", o_beyond),
            ("the right at its bound", right),
            ("the right beyond it", right_beyond),
            ("1 to 5 where 15 or 16 holds too", self.of_record),
        ]
    }

    /// What never occurred and should have, in words.
    pub fn missing(&self) -> Vec<String> {
        let by_run = ("an answer by run and held", self.by_run);
        let counts = self.named().into_iter().chain([by_run]);
        let never = counts.filter(|(_, count)| *count == 0);
        let mut missing: Vec<String> = never
            .map(|(what, _)| format!("first_held: {what}"))
            .collect();
        missing.extend(self.copies.missing("first_held: a copy"));
        missing
    }
}

impl fmt::Display for Firsts {
    fn fmt(&self, f: &mut fmt::Formatter<'_>) -> fmt::Result {
        let counts = self.named().map(|(what, count)| format!("{what} {count}"));
        writeln!(f, "first_held: {}", counts.join(", "))?;
        writeln!(
            f,
            "copies beside the record:{} answers of first_held also by run and held {}",
            Lengths::text(std::slice::from_ref(&self.copies)),
            self.by_run
        )
    }
}
