//! Records of fewer than sixteen columns, in words of 64 bits: four subject columns at once.

use super::cell::own_in_word;
use super::rooted::rooted;
use super::scan::{Rows, exist};
use super::tables::{Keep, NOBODY, Owners};

/// The columns that are counted at once.
const AT_ONCE: usize = 4;

/// The bytes of a word.
const WORD: usize = 8;

/// The word from byte `at` of a row on.
#[inline(always)]
fn word(row: &[u8], at: usize) -> u64 {
    u64::from_le_bytes(*row[at..].first_chunk().expect("a row has the word"))
}

/// The byte of a word at which each of four columns of W bytes is counted.
const fn byte<const W: usize>(column: usize) -> usize {
    if W == 2 {
        2 * column + 1
    } else {
        [0, 4, 3, 7][column]
    }
}

/// The number of each column at its byte, counted from `first` on and times `times`.
const fn at_bytes<const W: usize>(first: u64, times: u64) -> u64 {
    let mut all = 0;
    let mut column = 0;
    while column < AT_ONCE {
        all |= (first + times * column as u64) << (8 * byte::<W>(column));
        column += 1;
    }
    all
}

/// Own and control of four cells of W bytes, each at its byte.
#[inline(always)]
fn low_bits<const W: usize>(cells: &[u8]) -> u64 {
    if W == 2 {
        word(cells, 0) & 0x0300_0300_0300_0300
    } else {
        word(cells, 3) & 0x0000_0003_0000_0003 | word(cells, 8) & 0x0300_0000_0300_0000
    }
}

/// What is counted of four columns, as in larger records.
#[derive(Default)]
struct Counts {
    tally: u64,
    odd: u64,
    since: u64,
    sum: u64,
}

impl Counts {
    /// Four cells of a row join. A byte of the sum may carry into the next, where the record is not valid.
    #[inline(always)]
    fn join<const W: usize, K: Keep>(&mut self, cells: &[u8]) {
        let bits = low_bits::<W>(cells);
        self.tally += bits;
        self.odd ^= bits;
        self.since += self.odd & const { at_bytes::<W>(1, 0) };
        if K::OTHERS {
            self.sum = self.sum.wrapping_add(self.tally);
        }
    }

    /// The byte of a column in a word.
    #[inline(always)]
    fn of<const W: usize>(word: u64, column: usize) -> u8 {
        (word >> (8 * byte::<W>(column))) as u8
    }

    /// The owners of four columns.
    #[inline(always)]
    fn owners<const W: usize>(&self, n: usize) -> [u8; AT_ONCE] {
        std::array::from_fn(|column| match Self::of::<W>(self.since, column) {
            0 => 0,
            since => (n as u8).wrapping_sub(since),
        })
    }

    /// The other controllers of four columns, from column `first` on.
    #[inline(always)]
    fn others<const W: usize>(&self, first: usize, n: usize) -> [u8; AT_ONCE] {
        std::array::from_fn(|column| {
            let of = |word| Self::of::<W>(word, column);
            let both = of(self.sum).wrapping_sub(of(self.since)) / 2;
            let other = (2 * n).wrapping_sub(first + column) as u8;
            match of(self.tally) {
                5 => other.wrapping_sub(both),
                _ => NOBODY,
            }
        })
    }
}

/// What the tests found: set bits.
#[derive(Default)]
struct Faults {
    wrong: u64,
    higher: u64,
}

impl Faults {
    /// The tests of four columns from column `first` on, as in larger records. A byte is tested by its highest bit, after what it lacks to 128
    /// is added.
    #[inline(always)]
    fn join<const W: usize>(&mut self, counts: &Counts, first: usize, n: usize) {
        let ones = const { at_bytes::<W>(1, 0) };
        let column = const { at_bytes::<W>(0, 1) } + first as u64 * ones;
        let after_root = column + 127 * ones;
        let within = (127 + n as u64) * ones - column;
        let some = counts.tally + 127 * ones;
        let tested = after_root & within & some & (128 * ones);
        let sum = counts.tally + (counts.odd & (2 * ones));
        self.wrong |= (sum ^ (5 * ones)) & ((tested >> 7) * 255);
        self.higher |= ((128 + n as u64) * ones - counts.since - column) & tested;
        if first == 0 {
            let root = 8 * byte::<W>(0);
            self.wrong |= (counts.tally >> root & 255) ^ 2;
        }
    }

    /// The tests of the plain columns in a word, where columns from byte `skip` of it on are plain: each has an owner and no control, or is zero.
    #[inline(always)]
    fn join_plain<const W: usize>(&mut self, word: u64, skip: usize) {
        let seen = word & (!0u64).checked_shl(8 * skip as u32).unwrap_or(0);
        let own = own_in_word::<W>();
        let owned = (seen & own) >> (8 * W - 8);
        let cell = !0 >> (64 - 8 * W);
        self.wrong |= seen & own << 1 | seen & !(owned * cell);
    }
}

/// The tests of the columns of a record, as they are found.
struct Check<'a, const W: usize, K: Keep> {
    rows: Rows<'a>,
    keep: &'a mut K,
    faults: Faults,
}

impl<const W: usize, K: Keep> Check<'_, W, K> {
    /// What is counted of the four columns from column `first` on is tested and kept.
    #[inline(always)]
    fn counted(&mut self, counts: &Counts, first: usize) {
        let n = self.rows.n;
        self.faults.join::<W>(counts, first, n);
        if K::OWNERS {
            self.keep.owners(first, &counts.owners::<W>(n));
        }
        let shared = const { at_bytes::<W>(128 - 5, 0) } + counts.tally;
        if K::OTHERS && shared & const { at_bytes::<W>(128, 0) } != 0 {
            self.keep.others(first, &counts.others::<W>(first, n));
        }
    }

    /// The bits seen in a word of the rows from byte `at` on are tested and kept, where they are of plain columns.
    #[inline(always)]
    fn seen(&mut self, seen: u64, at: usize) {
        let skip = (W * self.rows.n).saturating_sub(at);
        let columns = seen.to_le_bytes();
        self.keep
            .plain::<W>((at + skip) / W, columns[skip..].as_chunks().0);
        self.faults.join_plain::<W>(seen, skip);
    }

    /// The first four columns, the first word of plain columns and whether all subjects exist, in one pass over the rows.
    #[inline(always)]
    fn first_columns(&mut self) -> bool {
        let Rows { cells, n, width } = self.rows;
        assert!(width >= AT_ONCE * W);
        let plain = (W * n).min(width - WORD);
        let (mut counts, mut seen, mut all) = (Counts::default(), 0, 255);
        let (mut rest, mut own) = (cells, W - 1);
        while let Some((row, after)) = rest.split_at_checked(width) {
            rest = after;
            counts.join::<W, K>(&row[..AT_ONCE * W]);
            seen |= word(row, plain);
            all &= row.get(own).unwrap_or(&0);
            own += W;
        }
        self.counted(&counts, 0);
        self.seen(seen, plain);
        all & 2 != 0
    }

    /// The columns after those.
    #[inline(always)]
    fn other_columns(&mut self) {
        let Rows { cells, n, width } = self.rows;
        for column in (AT_ONCE..n).step_by(AT_ONCE) {
            let first = column.min(width / W - AT_ONCE);
            let mut counts = Counts::default();
            let mut rest = cells;
            while let Some((row, after)) = rest.split_at_checked(width) {
                rest = after;
                counts.join::<W, K>(&row[W * first..][..AT_ONCE * W]);
            }
            self.counted(&counts, first);
        }
        for byte in (W * n + WORD..width).step_by(WORD) {
            let at = byte.min(width - WORD);
            let (mut rest, mut seen) = (cells, 0);
            while let Some((row, after)) = rest.split_at_checked(width) {
                rest = after;
                seen |= word(row, at);
            }
            self.seen(seen, at);
        }
    }
}

/// Whether following owners comes to U from every subject.
#[cold]
#[inline(never)]
fn all_rooted<const W: usize>(rows: Rows) -> bool {
    let mut owners = Owners::new();
    let mut check = Check::<W, Owners> {
        rows,
        keep: &mut owners,
        faults: Faults::default(),
    };
    check.first_columns();
    check.other_columns();
    rooted(&owners.owner, rows.n)
}

/// Whether rows of at least four columns are a valid matrix.
#[inline(always)]
fn fits<const W: usize, K: Keep>(rows: Rows, keep: &mut K) -> bool {
    let mut check = Check::<W, K> {
        rows,
        keep,
        faults: Faults::default(),
    };
    let all = check.first_columns();
    check.other_columns();
    let Faults { wrong, higher } = check.faults;
    wrong == 0 && exist::<W, K>(rows, all, keep) && (higher == 0 || all_rooted::<W>(rows))
}

/// Whether rows of fewer than sixteen columns are a valid matrix. Those of fewer than four columns get columns of zeros.
#[inline(never)]
pub fn small_fits<const W: usize, K: Keep>(
    cells: &[u8],
    n: usize,
    width: usize,
    keep: &mut K,
) -> bool {
    let least = AT_ONCE * W;
    if width >= least {
        return fits::<W, K>(Rows { cells, n, width }, keep);
    }
    let mut wide = [0; 48];
    for (to, row) in wide.chunks_exact_mut(least).zip(cells.chunks_exact(width)) {
        to[..width].copy_from_slice(row);
    }
    let rows = Rows {
        cells: &wide[..n * least],
        n,
        width: least,
    };
    widened_fits::<W, K>(rows, keep)
}

/// The same, by itself: few records are so small.
#[cold]
#[inline(never)]
fn widened_fits<const W: usize, K: Keep>(rows: Rows, keep: &mut K) -> bool {
    fits::<W, K>(rows, keep)
}
