//! Lengths of a lent buffer, beside the bytes that a call needs of it.

use crate::random::Random;

/// How long the buffer is.
#[derive(Clone, Copy)]
pub enum Length {
    Zero,
    OneLess,
    Exact,
    More,
    Any,
}

pub const LENGTHS: [Length; 5] = [
    Length::Zero,
    Length::OneLess,
    Length::Exact,
    Length::More,
    Length::Any,
];

impl Length {
    fn name(self) -> &'static str {
        match self {
            Length::Zero => "no bytes",
            Length::OneLess => "one byte less",
            Length::Exact => "just its bytes",
            Length::More => "more bytes",
            Length::Any => "any number of bytes",
        }
    }

    /// The bytes of the buffer where so many are needed, at least one.
    fn beside(self, needed: usize, random: &mut Random) -> usize {
        match self {
            Length::Zero => 0,
            Length::OneLess => needed - 1,
            Length::Exact => needed,
            Length::More => needed + 1 + random.below(300) as usize,
            Length::Any => random.below(2 * needed as u64) as usize,
        }
    }
}

/// How many buffers had which length.
#[derive(Default)]
pub struct Lengths([u64; LENGTHS.len()]);

impl Lengths {
    /// The bytes of one more buffer where so many are needed, at least one; its length is one of those given.
    pub fn drawn(&mut self, needed: usize, among: &[Length], random: &mut Random) -> usize {
        let length = random.pick(among);
        self.0[length as usize] += 1;
        length.beside(needed, random)
    }

    /// The lengths that never occurred, each after what the buffer is.
    pub fn missing(&self, what: &str) -> Vec<String> {
        let never = LENGTHS.iter().zip(self.0).filter(|(_, count)| *count == 0);
        never
            .map(|(length, _)| format!("{what} of {}", length.name()))
            .collect()
    }

    /// Each length with its count, of several kinds of buffers together.
    pub fn text(of: &[Lengths]) -> String {
        let counted = LENGTHS.into_iter().map(|length| {
            let count: u64 = of.iter().map(|lengths| lengths.0[length as usize]).sum();
            format!(" {} {count};", length.name())
        });
        counted.collect()
    }
}
