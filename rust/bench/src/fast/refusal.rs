//! The refusal of a command that is not accepted: the tests 6 to 12, 19, 13 and 14 in this order.

use super::cell::{self, CONTROL, OWN};
use super::station::Station;

impl<const W: usize> Station<'_, W> {
    /// Fills the tables for column o, whose cells are all looked at.
    #[cold]
    #[inline(never)]
    pub fn look_up(&mut self, o: u8) {
        let o = usize::from(o);
        if o >= self.columns {
            return;
        }
        let column = self.cells.iter().skip(o).step_by(self.columns);
        for (row, cell) in column.enumerate() {
            if o >= self.n {
                self.tables.plain[o] |= cell[W - 1];
            } else if row != o && cell::has(*cell, CONTROL) {
                self.tables.other[o] = row as u8;
            }
        }
    }

    /// The refusal of a command that is not accepted, and the links of the owner walk.
    #[cold]
    #[inline(never)]
    pub fn refusal(&self, fields: &[u8; 5]) -> (u64, u64) {
        let [code, i, s, o, k] = fields.map(usize::from);
        if !(1..=13).contains(&code) {
            return (6, 0);
        }
        let basic = matches!(code, 1 | 2 | 4 | 5 | 8 | 9);
        let named = i < self.n && s < self.n && o < self.columns;
        let unused = s != 0 && matches!(code, 10 | 11) || o != 0 && matches!(code, 12 | 13);
        let bound = if basic { Self::BASICS } else { 1 };
        if !named || unused || k >= bound {
            return (7, 0);
        }
        if !self.subject(i) {
            return (8, 0);
        }
        let wrong_kind = match code {
            6 => o >= self.n,
            7 | 10 | 11 => o < self.n,
            _ => false,
        };
        if wrong_kind {
            return (9, 0);
        }
        self.later_refusal(code, i, s, o)
    }

    /// The refusal from 10 on.
    fn later_refusal(&self, code: usize, i: usize, s: usize, o: usize) -> (u64, u64) {
        let there = match code {
            11 => self.exists(o),
            13 => self.exists(s),
            _ => self.exists(s) && self.exists(o),
        };
        match code {
            10 | 12 => (11, 0),
            _ if !there => (10, 0),
            3 if self.has(i, o, OWN) => (13, self.walk(s, o).1),
            6 if self.has(i, o, OWN) => (14, 0),
            8 | 9 if self.has(i, o, OWN) || self.has(i, s, CONTROL) => (19, 0),
            _ => (12, 0),
        }
    }
}
