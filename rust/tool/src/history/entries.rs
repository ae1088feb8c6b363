//! The entries of a history, read one after the other in a buffer that they share, up to its end or to what is no whole entry.

use std::io::{self, Read};

use crate::history::layout::{BEGINNING, Entry, HEAD, SUM, What, first_sum, length, sum};

/// What stands after the whole entries of a history.
#[derive(Clone, Copy, Debug, PartialEq, Eq)]
pub enum Rest {
    Nothing,
    /// What a change that is being written, or was cut off while it was, leaves.
    CutOff,
    /// Anything else, and what is wrong with it.
    Damaged(&'static str),
}

/// One more entry, or what stands after the last.
pub enum Next<'a> {
    Entry(Entry<'a>),
    End(Rest),
}

/// How many bytes are read at once.
const CHUNK: usize = 1 << 16;

/// Reads a history from its first byte on.
pub struct Entries<R> {
    from: R,
    buffer: Vec<u8>,
    /// The bytes of the buffer that are filled and not used yet.
    used: usize,
    filled: usize,
    /// How many entries were read, the byte at which the last ends, and its sum.
    count: u64,
    pub end: u64,
    pub sum: u64,
}

impl<R: Read> Entries<R> {
    pub fn new(from: R) -> Entries<R> {
        Entries {
            from,
            buffer: Vec::new(),
            used: 0,
            filled: 0,
            count: 0,
            end: 0,
            sum: first_sum(),
        }
    }

    /// The next entry, or what stands in its place. After that it is not asked again.
    pub fn next(&mut self) -> io::Result<Next<'_>> {
        if self.end == 0 {
            if self.fill(BEGINNING.len())? < BEGINNING.len()
                || self.unused()[..BEGINNING.len()] != BEGINNING
            {
                return Ok(damaged("its first bytes are not those of a history"));
            }
            self.take(BEGINNING.len());
        }
        let there = self.fill(HEAD + 1)?;
        if there <= HEAD {
            let rest = if there == 0 {
                Rest::Nothing
            } else {
                Rest::CutOff
            };
            return Ok(Next::End(rest));
        }
        let head = self.unused().first_chunk().expect("it is filled");
        let Some(length) = length(head, self.end) else {
            return Ok(damaged("the head of an entry is wrong"));
        };
        self.entry(HEAD + length)
    }

    /// The entry whose head and body have so many bytes.
    fn entry(&mut self, summed: usize) -> io::Result<Next<'_>> {
        let whole = summed + SUM;
        // One byte more, to see whether the file ends with this entry.
        let there = self.fill(whole + 1)?;
        if there < whole {
            return Ok(Next::End(Rest::CutOff));
        }
        let bytes = &self.unused()[..whole];
        let sum = sum(self.sum, &bytes[..summed]);
        if bytes[summed..] != sum.to_be_bytes() {
            let last = there == whole;
            return Ok(if last {
                Next::End(Rest::CutOff)
            } else {
                damaged("the sum of an entry is not that of its bytes")
            });
        }
        let from = self.used;
        let is_first = self.count == 0;
        let Some(entry) = Entry::read(&self.buffer[from + HEAD..from + summed]) else {
            return Ok(damaged("an entry makes no sense"));
        };
        let in_place = match entry.what {
            What::Start(_) => is_first,
            What::Run(_) => !is_first,
            What::Adopted(_) => true,
        };
        if !in_place {
            return Ok(damaged(
                "the first entry is no record, or a later one a start",
            ));
        }
        self.used += whole;
        self.end += whole as u64;
        self.count += 1;
        self.sum = sum;
        Ok(Next::Entry(entry))
    }

    fn unused(&self) -> &[u8] {
        &self.buffer[self.used..self.filled]
    }

    fn take(&mut self, count: usize) {
        self.used += count;
        self.end += count as u64;
    }

    /// Reads until so many bytes are there that are not used, or the file ends; how many are there then, at most so many. The buffer grows
    /// with what is read, whatever a head says.
    fn fill(&mut self, wanted: usize) -> io::Result<usize> {
        while self.filled - self.used < wanted {
            self.buffer.copy_within(self.used..self.filled, 0);
            self.filled -= self.used;
            self.used = 0;
            if self.buffer.len() < self.filled + CHUNK {
                self.buffer.resize(2 * self.filled + CHUNK, 0);
            }
            match self.from.read(&mut self.buffer[self.filled..]) {
                Ok(0) => break,
                Ok(count) => self.filled += count,
                Err(error) if error.kind() == io::ErrorKind::Interrupted => {}
                Err(error) => return Err(error),
            }
        }
        Ok(wanted.min(self.filled - self.used))
    }
}

fn damaged<'a>(why: &'static str) -> Next<'a> {
    Next::End(Rest::Damaged(why))
}
