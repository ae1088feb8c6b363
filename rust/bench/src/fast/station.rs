//! One command after another on a valid record. The subjects that exist, their owners and their other controllers are kept in tables, so that a
//! command looks at few cells and never searches a column. A command is accepted by the tests that are not implied by others; where one
//! fails, all are made in their order.

use super::cell::{self, CONTROL, OWN, basic};
use super::scan::FIRST;
use super::tables::{COLUMNS, ENTRIES, NOBODY, SUBJECTS, Tables};

/// A valid record with its tables.
pub struct Station<'a, const W: usize> {
    pub(super) cells: &'a mut [[u8; W]],
    pub(super) tables: &'a mut Tables,
    /// The subjects that exist, each as a bit.
    pub(super) subjects: u64,
    pub(super) n: usize,
    /// n + p.
    pub(super) columns: usize,
}

impl<'a, const W: usize> Station<'a, W> {
    /// The number of basic rights.
    pub const BASICS: usize = 4 * W - 1;

    /// A valid record, with the tables that its scan filled. That it keeps the limits is asserted: then the compiler knows that a
    /// column of the record is in the tables, and no command tests it again.
    #[inline(always)]
    pub fn new(record: &'a mut [u8], tables: &'a mut Tables) -> Self {
        let n = record[5] as usize;
        let columns = n + record[6] as usize;
        assert!(n <= SUBJECTS && columns <= COLUMNS);
        Station {
            cells: record[FIRST..].as_chunks_mut().0,
            subjects: tables.owners.subjects,
            tables,
            n,
            columns,
        }
    }

    /// Whether subject s exists. A number of 64 or more is none.
    #[inline(always)]
    pub(super) fn subject(&self, s: usize) -> bool {
        s < ENTRIES && self.subjects >> s & 1 == 1
    }

    /// Whether a row has a bit over a column. One that the record doesn't have has none.
    #[inline(always)]
    pub(super) fn has(&self, row: usize, column: usize, bit: usize) -> bool {
        match self.cells.get(row * self.columns + column) {
            Some(cell) => cell::has(*cell, bit),
            None => false,
        }
    }

    /// The cell of a row over a column.
    #[inline(always)]
    pub(super) fn cell(&mut self, row: usize, column: usize) -> &mut [u8; W] {
        &mut self.cells[row * self.columns + column]
    }

    /// One command: the links of the owner walk if it is accepted. Else the record is as it was.
    #[inline(always)]
    pub fn accepted(&mut self, fields: &[u8; 5]) -> Option<u64> {
        let [code, i, s, o, k] = fields.each_ref().map(|field| usize::from(*field));
        let accepted = match code {
            1 => self.put_basic(i, s, o, k, (0, basic(k, 1))),
            2 => self.put_basic(i, s, o, k, (1, basic(k, 1))),
            3 if k == 0 && o < self.n => return self.transfer_subject(i, s, o),
            3 if k == 0 => self.give_own(i, s, o, false),
            4 => self.put_basic(i, s, o, k, (0, OWN)),
            5 => self.put_basic(i, s, o, k, (1, OWN)),
            6 if k == 0 => self.grant_control(i, s, o),
            7 if k == 0 => self.give_own(i, s, o, true),
            8 | 9 => self.delete(i, s, o, k, code - 8),
            10 if s == 0 && k == 0 => self.create_object(i, o),
            11 if s == 0 && k == 0 => self.destroy_object(i, o),
            12 if o == 0 && k == 0 => self.create_subject(i, s),
            13 if o == 0 && k == 0 => self.destroy_subject(i, s),
            _ => false,
        };
        accepted.then_some(0)
    }

    /// Whether the name of a column exists.
    #[cold]
    pub(super) fn exists(&self, o: usize) -> bool {
        if o < self.n {
            self.subject(o)
        } else {
            self.tables.plain[o] != 0
        }
    }

    /// Codes 1, 2, 4 and 5: s gets a basic right over o in a form, where i has the bit that is needed for it. Then i and o exist.
    #[inline(always)]
    fn put_basic(
        &mut self,
        i: usize,
        s: usize,
        o: usize,
        k: usize,
        (form, needed): (usize, usize),
    ) -> bool {
        let allowed =
            k < Self::BASICS && o < self.columns && self.subject(s) && self.has(i, o, needed);
        if allowed {
            cell::set(self.cell(s, o), basic(k, form));
        }
        allowed
    }

    /// Codes 8 and 9: s loses a basic right over o in a form, whose bit it has. Then s and o exist.
    #[inline(always)]
    fn delete(&mut self, i: usize, s: usize, o: usize, k: usize, form: usize) -> bool {
        let set = k < Self::BASICS && o < self.columns && self.has(s, o, basic(k, form));
        let allowed = set && (self.has(i, o, OWN) || self.has(i, s, CONTROL));
        if allowed {
            cell::clear(self.cell(s, o), basic(k, form));
        }
        allowed
    }

    /// Codes 3 and 7 over a plain object: s gets own of it, and i loses it first or keeps it.
    #[inline(always)]
    fn give_own(&mut self, i: usize, s: usize, o: usize, keeps: bool) -> bool {
        let plain = self.n <= o && o < self.columns;
        let allowed = plain && self.subject(s) && self.has(i, o, OWN);
        if allowed && !keeps {
            cell::clear(self.cell(i, o), OWN);
        }
        if allowed {
            cell::set(self.cell(s, o), OWN);
        }
        allowed
    }

    /// The owner walk from s for subject o: the subject at which it ends, o or U, and the links.
    #[inline(always)]
    pub(super) fn walk(&self, s: usize, o: usize) -> (usize, u64) {
        let (mut at, mut links) = (s, 0);
        while at != o && at != 0 {
            at = self.tables.owners.owner[at] as usize;
            links += 1;
        }
        (at, links)
    }

    /// Code 3 over a subject.
    #[inline(always)]
    fn transfer_subject(&mut self, i: usize, s: usize, o: usize) -> Option<u64> {
        if !self.subject(s) || !self.has(i, o, OWN) {
            return None;
        }
        let (end, links) = self.walk(s, o);
        if end == o {
            return None;
        }
        cell::clear(self.cell(i, o), OWN);
        cell::set(self.cell(s, o), OWN);
        self.tables.owners.owner[o] = s as u8;
        Some(links)
    }

    /// Code 6.
    #[inline(always)]
    fn grant_control(&mut self, i: usize, s: usize, o: usize) -> bool {
        let allowed =
            o < self.n && self.subject(s) && self.has(i, o, OWN) && self.tables.other[o] == NOBODY;
        if allowed {
            cell::set(self.cell(s, o), CONTROL);
            self.tables.other[o] = if s == o { NOBODY } else { s as u8 };
        }
        allowed
    }
}
