//! Pseudorandom numbers and commands.

use reference::uses;

/// A small generator (xorshift), so that a test meets the same stations each time.
pub struct Random(pub u64);

impl Random {
    pub fn below(&mut self, bound: u64) -> u64 {
        self.0 ^= self.0 << 13;
        self.0 ^= self.0 >> 7;
        self.0 ^= self.0 << 17;
        (self.0 >> 11) % bound
    }

    /// The fields of a command on a record of n by p, with one of these k. A field that the command does not use
    /// is left 0.
    pub fn command(&mut self, n: u64, p: u64, ks: &[u64]) -> [u64; 5] {
        let code = 1 + self.below(13);
        let uses = uses(code).expect("the code is 1 to 13");
        let mut field = |used: bool, bound: u64| if used { self.below(bound) } else { 0 };
        let (i, s, o) = (field(true, n), field(uses.s, n), field(uses.o, n + p));
        let index = field(uses.k, ks.len() as u64) as usize;
        let k = if uses.k { ks[index] } else { 0 };
        [code, i, s, o, k]
    }
}
