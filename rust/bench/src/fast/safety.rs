//! The safety question: whether the right is held, can be passed on by an untrusted holder of the star, or can be given by an
//! untrusted subject above o.

use super::cell::{CONTROL, OWN};
use super::scan::{FIRST, scan};
use super::tables::{Owners, SUBJECTS};
use super::witness::Witness;
use super::{cell_of, held_mask, question_fits, wide};

/// A question on a valid record with its tables, and the buffer for the list.
pub struct Question<'a, const W: usize> {
    pub record: &'a [u8],
    pub owners: &'a Owners,
    pub n: usize,
    pub trust: u64,
    pub s: usize,
    pub o: usize,
    pub right: usize,
}

/// The safety question: the refusal, and 0 for safe or N + 1 for leaks by N commands.
pub fn safety(record: &[u8], trust: u64, s: u64, o: u64, right: u64, out: &mut [u8]) -> (u64, u64) {
    if wide(record) {
        safety_in::<4>(record, trust, (s, o, right), out)
    } else {
        safety_in::<2>(record, trust, (s, o, right), out)
    }
}

#[inline(always)]
fn safety_in<const W: usize>(
    record: &[u8],
    trust: u64,
    (s, o, right): (u64, u64, u64),
    out: &mut [u8],
) -> (u64, u64) {
    let mut owners = Owners::new();
    if let Err(refusal) = scan::<W, _>(record, &mut owners) {
        return (refusal, 0);
    }
    let n = record[5] as usize;
    if !question_fits::<W>(record, s, o, right) || trust >> n != 0 {
        return (7, 0);
    }
    if out.len() < 5 + 6 * (n + 2) {
        return (15, 0);
    }
    let question = Question::<W> {
        record,
        owners: &owners,
        n,
        trust,
        s: s as usize,
        o: o as usize,
        right: right as usize,
    };
    (0, question.answer(Witness::new(out)))
}

impl<const W: usize> Question<'_, W> {
    fn trusted(&self, subject: usize) -> bool {
        self.trust >> subject & 1 == 1
    }

    /// Whether the name of a column exists.
    pub fn exists(&self, o: usize) -> bool {
        if o < self.n {
            self.owners.exists(o)
        } else {
            self.rows(o, OWN) != 0
        }
    }

    /// Whether another than subject o itself controls it.
    pub fn controlled(&self, o: usize) -> bool {
        self.rows(o, CONTROL) & !(1 << o) != 0
    }

    /// The rows that have own or control over column o, each as a bit.
    #[inline(always)]
    fn rows(&self, o: usize, bit: usize) -> u64 {
        let width = W * (self.n + self.record[6] as usize);
        let (mut rows, mut at) = (0u64, FIRST + W * o + W - 1);
        while let Some(byte) = self.record.get(at) {
            rows = (rows | u64::from(byte >> bit & 1)).rotate_right(1);
            at += width;
        }
        rows.rotate_left(self.n as u32)
    }

    /// Whether a valid state may have s with the right over o.
    fn possible(&self) -> bool {
        let subject = self.o < self.n;
        match self.right {
            0 => !subject || (self.o != self.s && self.o != 0),
            1 => subject && (self.o != 0 || self.s == 0),
            _ => true,
        }
    }

    /// The lowest subject that exists and is untrusted.
    fn lowest_untrusted(&self) -> Option<usize> {
        (0..self.n).find(|&v| !self.trusted(v) && self.owners.exists(v))
    }

    /// The lowest untrusted subject with the star of a basic right over o.
    fn star_holder(&self) -> Option<usize> {
        if self.right < 2 {
            return None;
        }
        let star = 1 << (self.right | 1);
        let mut untrusted = !self.trust & !0 >> (64 - self.n);
        while untrusted != 0 {
            let v = untrusted.trailing_zeros() as usize;
            if cell_of::<W>(self.record, v, self.o) & star != 0 {
                return Some(v);
            }
            untrusted &= untrusted - 1;
        }
        None
    }

    /// The way from the owner w of o up to the first untrusted subject, which it gives. The trusted subjects on it are written
    /// to `path`. It ends at a subject that an earlier way has passed, as that one met no untrusted subject.
    fn climb(
        &self,
        w: usize,
        passed: &mut u64,
        path: &mut [u8; SUBJECTS],
    ) -> Option<(usize, usize)> {
        let (mut at, mut count) = (w, 0);
        while self.trusted(at) {
            if at == 0 || *passed >> at & 1 == 1 {
                return None;
            }
            *passed |= 1 << at;
            path[count] = at as u8;
            count += 1;
            at = self.owners.owner[at] as usize;
        }
        Some((at, count))
    }

    /// The way up from the lowest owner of o that has an untrusted subject at or above it.
    fn way_up(&self, mut owners: u64, path: &mut [u8; SUBJECTS]) -> Option<(usize, usize)> {
        let mut passed = 0;
        while owners != 0 {
            let w = owners.trailing_zeros() as usize;
            let found = self.climb(w, &mut passed, path);
            if found.is_some() {
                return found;
            }
            owners &= owners - 1;
        }
        None
    }

    /// 0 for safe, or N + 1 with the list written.
    fn answer(&self, list: Witness) -> u64 {
        if cell_of::<W>(self.record, self.s, self.o) & held_mask(self.right as u64) != 0 {
            return 1 + list.finish();
        }
        if !self.possible() {
            return 0;
        }
        if let Some(holder) = self.star_holder() {
            return 1 + list.by_star(self, holder);
        }
        let owners = match self.o {
            0 => return 0,
            o if o >= self.n => self.rows(o, OWN),
            o if self.owners.exists(o) => 1 << self.owners.owner[o],
            _ => 0,
        };
        if owners == 0 {
            return match self.lowest_untrusted() {
                Some(v) => 1 + list.by_creation(self, v),
                None => 0,
            };
        }
        let mut path = [0; SUBJECTS];
        match self.way_up(owners, &mut path) {
            Some((v, count)) => 1 + list.by_owner(self, v, &path[..count]),
            None => 0,
        }
    }
}
