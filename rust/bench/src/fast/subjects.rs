//! The subject columns of a record, sixteen at once: what is counted in each, and its tests.

use super::lanes::{BLOCK, LANE, Lane};
use super::parts::{Part, part};
use super::rooted::rooted;
use super::scan::Rows;
use super::tables::{ENTRIES, Keep, NOBODY, SUBJECTS};

/// The columns that are counted at once.
pub const AT_ONCE: usize = 16;

/// Sixteen columns are as many groups as a cell has bytes. The columns of group q are counted at places q, q + w and so on, and the last bytes
/// of their cells stand there if sixteen bytes are taken from this one on.
const fn offset(w: usize, q: usize) -> usize {
    AT_ONCE * q + w - 1 - q
}

/// Own and control at the places of a group.
const fn mask(w: usize, q: usize) -> [u8; AT_ONCE] {
    let mut mask = [0; AT_ONCE];
    let mut at = q;
    while at < AT_ONCE {
        mask[at] = 3;
        at += w;
    }
    mask
}

/// The place at which a column of sixteen is counted.
const fn place(w: usize, column: usize) -> usize {
    let group = AT_ONCE / w;
    w * (column % group) + column / group
}

/// The number of the column that is counted at each place.
const fn numbers(w: usize) -> [u8; AT_ONCE] {
    let mut numbers = [0; AT_ONCE];
    let mut column = 0;
    while column < AT_ONCE {
        numbers[place(w, column)] = column as u8;
        column += 1;
    }
    numbers
}

/// Sixteen bytes as lanes.
type Block = [Lane; BLOCK];

/// What is counted of sixteen columns, a byte for each.
#[derive(Clone, Copy)]
struct Counts {
    /// The number of owners plus twice the number of controllers: at most three times the number of rows, which fits a byte.
    tally: Block,
    /// Own and control where an odd number of rows has it.
    odd: Block,
    /// From how many rows on an odd number has owned it. Where there is one owner, that is how many rows are that row or after it.
    since: Block,
    /// The tallies after each row added up, where other controllers are kept.
    sum: Block,
}

/// A block of zeros.
#[inline(always)]
fn zeros() -> Block {
    [Lane::every(0); BLOCK]
}

/// B times sixteen cells of each row, from byte `start` of a row on.
#[inline(always)]
fn count<const W: usize, const B: usize, K: Keep>(rows: Rows, start: usize) -> [Counts; B] {
    let Rows { cells, width, .. } = rows;
    let mut all = [Counts {
        tally: zeros(),
        odd: zeros(),
        since: zeros(),
        sum: zeros(),
    }; B];
    let bytes = AT_ONCE * W;
    assert!(width >= B * bytes && start <= width - B * bytes);
    let mut rest = cells;
    while let Some((row, after)) = rest.split_at_checked(width) {
        rest = after;
        let cells = &row[start..][..B * bytes];
        for b in 0..B {
            let counts = &mut all[b];
            for at in 0..BLOCK {
                let bits = low_bits::<W>(&cells[b * bytes..][..bytes], at);
                counts.tally[at] = counts.tally[at] + bits;
                counts.odd[at] = counts.odd[at] ^ bits;
                counts.since[at] = counts.since[at] + (counts.odd[at] & Lane::every(1));
                if K::OTHERS {
                    counts.sum[at] = counts.sum[at] + counts.tally[at];
                }
            }
        }
    }
    all
}

/// Own and control of sixteen cells of W bytes, each at its place; of these a lane.
#[inline(always)]
fn low_bits<const W: usize>(cells: &[u8], at: usize) -> Lane {
    let taken = |q: usize| {
        let bytes: &Part<BLOCK> = part(cells, offset(W, q));
        let masks = const { &[mask(W, 0), mask(W, 1), mask(W, 2), mask(W, 3)] };
        let mask: &Part<BLOCK> = part(&masks[q], 0);
        Lane::of(&bytes[at]) & Lane::of(&mask[at])
    };
    let first = taken(0) | taken(1);
    if W == 2 {
        first
    } else {
        first | (taken(2) | taken(3))
    }
}

/// The numbers of the columns of a block that begins with column `first`; of these a lane.
#[inline(always)]
fn columns<const W: usize>(first: usize, at: usize) -> Lane {
    let numbers: &Part<BLOCK> = part(const { &numbers(W) }, 0);
    Lane::of(&numbers[at]) + Lane::every(first as u8)
}

impl Counts {
    /// The owner of each column that has one, and U of one that has none.
    #[inline(always)]
    fn owners(&self, n: usize) -> Block {
        let mut owners = zeros();
        for (owner, &since) in owners.iter_mut().zip(&self.since) {
            *owner = (Lane::every(n as u8) - since) & since.at_least(Lane::every(1));
        }
        owners
    }
}

/// A block as bytes.
#[inline(always)]
fn stored(block: &Block) -> [u8; AT_ONCE] {
    let mut bytes = [[0; LANE]; BLOCK];
    for (to, lane) in bytes.iter_mut().zip(block) {
        lane.store(to);
    }
    *bytes
        .as_flattened()
        .first_chunk()
        .expect("a block has sixteen bytes")
}

/// The bytes at even places, and after them the others.
#[inline(always)]
fn even_first(bytes: [u8; AT_ONCE]) -> [u8; AT_ONCE] {
    let mut halves = [0; AT_ONCE];
    for (at, pair) in bytes.as_chunks::<2>().0.iter().enumerate() {
        let both = u16::from_le_bytes(*pair);
        halves[at] = both as u8;
        halves[AT_ONCE / 2 + at] = (both >> 8) as u8;
    }
    halves
}

/// The bytes of a block in the columns' order: those of the first group, and so on.
#[inline(always)]
fn in_order<const W: usize>(bytes: [u8; AT_ONCE]) -> [u8; AT_ONCE] {
    let halves = even_first(bytes);
    if W == 2 { halves } else { even_first(halves) }
}

/// What is found of the subjects, over all blocks.
struct Found {
    /// Bits are set where one but U that has an owner or a controller has another number of owners than one, or more controllers than two.
    wrong: Block,
    /// Bits are set where one but U has an owner with a higher number. If there is none, no cycle of owners is possible.
    higher: Block,
    /// Bits are set where one but U has two controllers.
    shared: Block,
    /// The tally of U, which has no owner and no other controller if it is 2.
    root: u8,
    /// The owners in each block.
    owners: [[u8; AT_ONCE]; BLOCKS],
    /// The tallies and the sums in each block, where other controllers are kept.
    tallies: [[u8; AT_ONCE]; BLOCKS],
    sums: [[u8; AT_ONCE]; BLOCKS],
}

/// The blocks of the most subjects, and the first column of one of them. A last block that would go beyond the subjects begins earlier and repeats
/// some, or is the only one and goes on into the plain columns.
const BLOCKS: usize = SUBJECTS.div_ceil(AT_ONCE);

#[inline(always)]
fn first_column(block: usize, n: usize) -> usize {
    (AT_ONCE * block).min(n.saturating_sub(AT_ONCE))
}

impl Found {
    #[inline(always)]
    fn new() -> Found {
        Found {
            wrong: zeros(),
            higher: zeros(),
            shared: zeros(),
            root: 0,
            owners: [[0; AT_ONCE]; BLOCKS],
            tallies: [[0; AT_ONCE]; BLOCKS],
            sums: [[0; AT_ONCE]; BLOCKS],
        }
    }

    /// A block joins. A subject that exists fits if it has one owner and one or two controllers: the tally, plus 2 where an odd number controls
    /// it, is 5. Otherwise that is so only where nobody controls it.
    #[inline(always)]
    fn join<const W: usize, K: Keep>(
        &mut self,
        counts: &Counts,
        block: usize,
        n: usize,
        keep: &mut K,
    ) {
        let first = first_column(block, n);
        let owners = counts.owners(n);
        for (at, &owner) in owners.iter().enumerate() {
            let column = columns::<W>(first, at);
            let tested = Lane::every(n as u8 - 1).at_least(column)
                & column.at_least(Lane::every(1))
                & counts.tally[at].at_least(Lane::every(1));
            let sum = counts.tally[at] + (counts.odd[at] & Lane::every(2));
            self.wrong[at] |= (sum ^ Lane::every(5)) & tested;
            self.higher[at] |= owner.at_least(column) & tested;
            if K::OTHERS {
                self.shared[at] |= counts.tally[at].at_least(Lane::every(5)) & tested;
            }
        }
        self.owners[block] = stored(&owners);
        if K::OWNERS {
            keep.owners(first, &in_order::<W>(self.owners[block]));
        }
        if K::OTHERS {
            self.tallies[block] = stored(&counts.tally);
            self.sums[block] = stored(&counts.sum);
        }
        if block == 0 {
            self.root = stored(&counts.tally)[0];
        }
    }

    /// Whether following owners comes to U from each of n subjects.
    #[cold]
    #[inline(never)]
    fn rooted<const W: usize>(&self, n: usize) -> bool {
        let mut owner = [0; ENTRIES];
        for block in 0..n.div_ceil(AT_ONCE) {
            let ordered = in_order::<W>(self.owners[block]);
            owner[first_column(block, n)..][..AT_ONCE].copy_from_slice(&ordered);
        }
        rooted(&owner, n)
    }

    /// Keeps the other controllers of n subjects that fit. Of the sum of tallies each row that owns a subject has made as many as there are rows
    /// from it on, and each that controls it twice as many.
    #[cold]
    #[inline(never)]
    fn keep_others<const W: usize, K: Keep>(&self, n: usize, keep: &mut K) {
        for block in 0..n.div_ceil(AT_ONCE) {
            let first = first_column(block, n);
            let others: [u8; AT_ONCE] = std::array::from_fn(|column| {
                let at = place(W, column);
                let from_owner = n as u8 - self.owners[block][at];
                let from_both = self.sums[block][at].wrapping_sub(from_owner) / 2;
                let other = (2 * n).wrapping_sub(first + column) as u8;
                match self.tallies[block][at] {
                    5 => other.wrapping_sub(from_both),
                    _ => NOBODY,
                }
            });
            keep.others(first, &others);
        }
    }
}

/// Whether no bit is set.
#[inline(never)]
fn none(block: &Block) -> bool {
    u128::from_ne_bytes(stored(block)) == 0
}

/// Whether the subjects that exist fit, and following owners comes to U from each, in a record of at least sixteen columns in which all with an
/// owner or a controller exist.
#[inline(always)]
pub fn subjects_fit<const W: usize, K: Keep>(rows: Rows, keep: &mut K) -> bool {
    let n = rows.n;
    let mut found = Found::new();
    let mut block = 0;
    while AT_ONCE * (block + 2) <= n {
        let [one, two] = count::<W, 2, K>(rows, W * AT_ONCE * block);
        found.join::<W, K>(&one, block, n, keep);
        found.join::<W, K>(&two, block + 1, n, keep);
        block += 2;
    }
    while AT_ONCE * block < n {
        let [counts] = count::<W, 1, K>(rows, W * first_column(block, n));
        found.join::<W, K>(&counts, block, n, keep);
        block += 1;
    }
    if K::OTHERS && !none(&found.shared) {
        found.keep_others::<W, K>(n, keep);
    }
    found.root == 2 && none(&found.wrong) && (none(&found.higher) || found.rooted::<W>(n))
}
