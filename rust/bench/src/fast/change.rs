//! The commands that create and destroy names.

use super::cell::{self, CONTROL, OWN};
use super::station::Station;
use super::tables::{ENTRIES, NOBODY};

/// The entries of a table that are changed at once.
const AT_ONCE: usize = 16;

/// A row of so many columns is handed on cell by cell: a word that was stored in parts just before would have to wait for them.
const FEW: usize = 16;

/// The bytes of a word.
const WORD: usize = 8;

/// Clears the cells of a column.
#[inline(never)]
fn clear_column<const W: usize>(cells: &mut [[u8; W]], columns: usize, column: usize) {
    let mut at = column;
    while at < cells.len() {
        cells[at] = [0; W];
        at += columns;
    }
}

/// Row i gains own over all that row s owns, and row s is cleared.
#[inline(never)]
fn hand_on<const W: usize>(cells: &mut [[u8; W]], columns: usize, i: usize, s: usize) {
    let (low, high) = cells.split_at_mut(i.max(s) * columns);
    let low = &mut low[i.min(s) * columns..][..columns];
    let high = &mut high[..columns];
    let (to, from) = if i < s { (low, high) } else { (high, low) };
    if columns <= FEW {
        for (to, from) in to.iter_mut().zip(from) {
            *to = cell::joined(*to, *from, OWN);
            *from = [0; W];
        }
    } else {
        gain_own::<W>(to.as_flattened_mut(), from.as_flattened());
        from.fill([0; W]);
    }
}

/// Own of a row joins another row, in words. A last word that would go beyond the row begins earlier and repeats some.
#[inline(always)]
fn gain_own<const W: usize>(to: &mut [u8], from: &[u8]) {
    let joined = |to: &mut [u8; WORD], from: &[u8; WORD]| {
        let own = u64::from_le_bytes(*from) & cell::own_in_word::<W>();
        *to = (u64::from_le_bytes(*to) | own).to_le_bytes();
    };
    let words = from.as_chunks().0.iter();
    for (to, from) in to.as_chunks_mut().0.iter_mut().zip(words) {
        joined(to, from);
    }
    if let (Some(to), Some(from)) = (to.last_chunk_mut(), from.last_chunk()) {
        joined(to, from);
    }
}

/// Row i instead of row s in the entries of n subjects.
#[inline(always)]
fn instead(entries: &mut [u8; ENTRIES], n: usize, s: u8, i: u8) {
    let parts = entries.as_chunks_mut::<AT_ONCE>().0;
    for part in parts.iter_mut().take(n.div_ceil(AT_ONCE)) {
        for entry in part {
            *entry = if *entry == s { i } else { *entry };
        }
    }
}

impl<const W: usize> Station<'_, W> {
    /// Code 10: the absent plain object o gets the owner i.
    #[inline(always)]
    pub(super) fn create_object(&mut self, i: usize, o: usize) -> bool {
        let plain = self.n <= o && o < self.columns;
        let allowed = plain && self.subject(i) && self.tables.plain[o] == 0;
        if allowed {
            cell::set(self.cell(i, o), OWN);
            self.tables.plain[o] = 1;
        }
        allowed
    }

    /// Code 11: the column of a plain object that i owns is cleared.
    #[inline(always)]
    pub(super) fn destroy_object(&mut self, i: usize, o: usize) -> bool {
        let plain = self.n <= o && o < self.columns;
        let allowed = plain && self.has(i, o, OWN);
        if allowed {
            clear_column(self.cells, self.columns, o);
            self.tables.plain[o] = 0;
        }
        allowed
    }

    /// Code 12: the absent subject s gets the owner i and controls itself.
    #[inline(always)]
    pub(super) fn create_subject(&mut self, i: usize, s: usize) -> bool {
        let allowed = s < self.n && self.subject(i) && !self.subject(s);
        if allowed {
            cell::set(self.cell(i, s), OWN);
            cell::set(self.cell(s, s), CONTROL);
            self.subjects |= 1 << s;
            self.tables.owners.owner[s] = i as u8;
            self.tables.other[s] = NOBODY;
        }
        allowed
    }

    /// Code 13: i gains own over all that s owns, and row and column s are cleared.
    #[inline(always)]
    pub(super) fn destroy_subject(&mut self, i: usize, s: usize) -> bool {
        let allowed = s < self.n && self.has(i, s, OWN);
        if allowed {
            hand_on(self.cells, self.columns, i, s);
            clear_column(self.cells, self.columns, s);
            self.subjects &= !(1 << s);
            instead(&mut self.tables.owners.owner, self.n, s as u8, i as u8);
            instead(&mut self.tables.other, self.n, s as u8, NOBODY);
        }
        allowed
    }
}
