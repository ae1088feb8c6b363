//! The list of commands of a leak, written into the caller's buffer.

use super::cell::OWN;
use super::safety::Question;
use super::{cell_of, held_by_own};

/// A list under way.
pub struct Witness<'a> {
    out: &'a mut [u8],
    count: usize,
}

impl<'a> Witness<'a> {
    /// An empty list in a buffer of at least 5 + 6 (n + 2) bytes.
    pub fn new(out: &'a mut [u8]) -> Witness<'a> {
        Witness { out, count: 0 }
    }

    /// Writes one command.
    fn put(&mut self, code: u8, i: usize, s: usize, o: usize, k: usize) {
        let at = 5 + 6 * self.count;
        let fields = [5, code, i as u8, s as u8, o as u8, k as u8];
        self.out[at..at + 6].copy_from_slice(&fields);
        self.count += 1;
    }

    /// Writes the head of the list and gives the number of commands.
    pub fn finish(self) -> u64 {
        let length = (6 * self.count) as u32;
        self.out[0] = 1;
        self.out[1..5].copy_from_slice(&length.to_be_bytes());
        self.count as u64
    }

    /// i, which has the star, creates s where it is absent and passes it the right.
    pub fn by_star<const W: usize>(mut self, q: &Question<W>, i: usize) -> u64 {
        if !q.exists(q.s) {
            self.put(12, i, q.s, 0, 0);
        }
        let starred = (q.right % 2) as u8;
        self.put(1 + starred, i, q.s, q.o, (q.right - 2) / 2);
        self.finish()
    }

    /// v creates the absent o, and gives the right over it.
    pub fn by_creation<const W: usize>(mut self, q: &Question<W>, v: usize) -> u64 {
        let subject = q.o < q.n;
        if subject {
            self.put(12, v, q.o, 0, 0);
        } else {
            self.put(10, v, 0, q.o, 0);
        }
        let held = (held_by_own(q.right) && q.s == v) || (q.right == 1 && q.s == q.o);
        if held {
            return self.finish();
        }
        if !q.exists(q.s) && q.s != q.o {
            self.put(12, v, q.s, 0, 0);
        }
        self.give(q, v)
    }

    /// v destroys the subjects between it and o, the highest first, down to one that owns o, so that it owns o itself, and gives the right
    /// over it. Only a log may have more than one owner.
    pub fn by_owner<const W: usize>(mut self, q: &Question<W>, v: usize, path: &[u8]) -> u64 {
        let path = match path {
            [_, higher @ ..] if q.o >= q.n => {
                let owns = |&w: &u8| cell_of::<W>(q.record, w as usize, q.o) & 1 << OWN != 0;
                &path[higher.iter().rposition(owns).map_or(0, |at| at + 1)..]
            }
            _ => path,
        };
        for &w in path.iter().rev() {
            self.put(13, v, w as usize, 0, 0);
        }
        if held_by_own(q.right) && q.s == v {
            return self.finish();
        }
        let refused = match q.right {
            0 => q.o < q.n && self.below(q),
            1 => q.controlled(q.o),
            _ => false,
        };
        if refused {
            self.put(13, v, q.o, 0, 0);
            self.put(12, v, q.o, 0, 0);
        }
        if !q.exists(q.s) || path.contains(&(q.s as u8)) {
            self.put(12, v, q.s, 0, 0);
        }
        self.give(q, v)
    }

    /// Whether the owner walk from an existing s meets subject o, so that own of o can't go to s as things stand.
    fn below<const W: usize>(&self, q: &Question<W>) -> bool {
        let mut at = q.s;
        while at != q.o && at != 0 && q.exists(at) {
            at = q.owners.owner[at] as usize;
        }
        at == q.o
    }

    /// v, which owns o, gives s the right over it.
    fn give<const W: usize>(mut self, q: &Question<W>, v: usize) -> u64 {
        match q.right {
            0 if q.o < q.n => self.put(3, v, q.s, q.o, 0),
            0 => self.put(7, v, q.s, q.o, 0),
            1 => self.put(6, v, q.s, q.o, 0),
            _ => {
                let starred = (q.right % 2) as u8;
                self.put(4 + starred, v, q.s, q.o, (q.right - 2) / 2);
            }
        }
        self.finish()
    }
}
