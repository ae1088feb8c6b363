//! What the passes over a record's rows keep of its columns.

use super::cell::number;
use bunvespo::{MOST_PLAIN, MOST_SUBJECTS};

/// The limits of n, of p and of n + p.
pub const SUBJECTS: usize = MOST_SUBJECTS as usize;
pub const PLAIN: usize = MOST_PLAIN as usize;
pub const COLUMNS: usize = SUBJECTS + PLAIN;

/// The entries of a table over subjects: as many as there are bits in a set of them. A last block of sixteen columns that goes beyond the
/// subjects is still within it.
pub const ENTRIES: usize = 64;
const _: () = assert!(SUBJECTS + 16 <= ENTRIES);

/// The entry of a subject that nobody else controls.
pub const NOBODY: u8 = 255;

/// What is kept of a record that is checked.
pub trait Keep {
    /// Whether the owners of subjects are kept, and their other controllers.
    const OWNERS: bool = false;
    const OTHERS: bool = false;

    /// The subjects that exist, each as a bit.
    #[inline(always)]
    fn exist(&mut self, _subjects: u64) {}

    /// The owners of the columns from column `first` on, U where there is none.
    #[inline(always)]
    fn owners(&mut self, _first: usize, _owners: &[u8]) {}

    /// Who controls each column from column `first` on besides itself, or nobody.
    #[inline(always)]
    fn others(&mut self, _first: usize, _others: &[u8]) {}

    /// The bits set in some row of plain columns, of which the first is column `first`.
    #[inline(always)]
    fn plain<const W: usize>(&mut self, _first: usize, _seen: &[[u8; W]]) {}
}

/// Nothing is kept.
impl Keep for () {}

/// The subjects that exist and their owners.
pub struct Owners {
    /// The subjects that exist, each as a bit.
    pub subjects: u64,
    /// The owner of each, U where there is none.
    pub owner: [u8; ENTRIES],
}

impl Owners {
    #[inline(always)]
    pub fn new() -> Self {
        Owners {
            subjects: 0,
            owner: [0; ENTRIES],
        }
    }

    /// Whether a subject exists. A number of 64 or more is none.
    #[inline(always)]
    pub fn exists(&self, s: usize) -> bool {
        s < ENTRIES && self.subjects >> s & 1 == 1
    }
}

impl Keep for Owners {
    const OWNERS: bool = true;

    #[inline(always)]
    fn exist(&mut self, subjects: u64) {
        self.subjects = subjects;
    }

    #[inline(always)]
    fn owners(&mut self, first: usize, owners: &[u8]) {
        self.owner[first..][..owners.len()].copy_from_slice(owners);
    }
}

/// What commands look at beside cells.
pub struct Tables {
    pub owners: Owners,
    /// Who controls each subject besides itself, or nobody.
    pub other: [u8; ENTRIES],
    /// Not 0 where a plain object exists.
    pub plain: [u8; COLUMNS],
}

impl Tables {
    /// Tables in which no plain object exists and nobody controls another.
    #[inline(always)]
    pub fn new(owners: Owners) -> Self {
        Tables {
            owners,
            other: [NOBODY; ENTRIES],
            plain: [0; COLUMNS],
        }
    }
}

impl Keep for Tables {
    const OWNERS: bool = true;
    const OTHERS: bool = true;

    #[inline(always)]
    fn exist(&mut self, subjects: u64) {
        self.owners.exist(subjects);
    }

    #[inline(always)]
    fn owners(&mut self, first: usize, owners: &[u8]) {
        self.owners.owners(first, owners);
    }

    #[inline(always)]
    fn others(&mut self, first: usize, others: &[u8]) {
        self.other[first..][..others.len()].copy_from_slice(others);
    }

    /// An absent object's column is zero, and that of another has own in its last byte.
    #[inline(always)]
    fn plain<const W: usize>(&mut self, first: usize, seen: &[[u8; W]]) {
        for (to, cell) in self.plain[first..][..seen.len()].iter_mut().zip(seen) {
            *to = (number(*cell) >> (8 * W - 8)) as u8;
        }
    }
}
