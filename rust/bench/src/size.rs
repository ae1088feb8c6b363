//! Versions and sizes of records.

use bunvespo::{MOST_PLAIN, MOST_SUBJECTS};

/// The versions of a record.
pub const VERSIONS: [usize; 2] = [1, 2];

/// The version of a record, and how many subject names and plain names it has.
#[derive(Clone, Copy)]
pub struct Size {
    pub version: usize,
    pub n: usize,
    pub p: usize,
}

impl Size {
    /// What the head of a record says.
    pub fn of(record: &[u8]) -> Size {
        Size {
            version: record[0] as usize,
            n: record[5] as usize,
            p: record[6] as usize,
        }
    }

    /// The same size in another version.
    pub fn in_version(self, version: usize) -> Size {
        Size { version, ..self }
    }

    /// The bytes of a cell.
    pub fn cell_bytes(self) -> usize {
        2 * self.version
    }

    /// The number of basic rights.
    pub fn basics(self) -> usize {
        4 * self.cell_bytes() - 1
    }

    pub fn columns(self) -> usize {
        self.n + self.p
    }

    /// The bytes of a record.
    pub fn record_bytes(self) -> usize {
        7 + self.cell_bytes() * self.n * self.columns()
    }

    /// The place of the first byte of a cell.
    pub fn place(self, row: usize, column: usize) -> usize {
        7 + self.cell_bytes() * (row * self.columns() + column)
    }

    /// All n subjects as a trust mask.
    pub fn all(self) -> u64 {
        !0 >> (64 - self.n)
    }
}

/// The sizes that are measured in a version, small to large. The last is the largest that there is.
pub const fn sizes(version: usize) -> [Size; 3] {
    let (most, most_plain) = (MOST_SUBJECTS as usize, MOST_PLAIN as usize);
    let mut sizes = [Size {
        version,
        n: 4,
        p: 4,
    }; 3];
    (sizes[1].n, sizes[1].p) = (16, 48);
    (sizes[2].n, sizes[2].p) = (most, most_plain);
    sizes
}

/// The largest size of a version.
pub const fn largest(version: usize) -> Size {
    sizes(version)[2]
}
