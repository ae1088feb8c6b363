//! The bytes of a history: its first eight, and its entries. Numbers have their high byte first. `docs/HISTORY.md` describes them.

use crate::history::sums::{Crc64, crc_32};
use crate::library::{Command, Refusal};

/// The first bytes of a history; the last of them is the layout's version.
pub const BEGINNING: [u8; 8] = *b"BUNVHIS\x01";
/// The bytes of an entry's head: the length of its body, and the sum of that and of the entry's place.
pub const HEAD: usize = 8;
/// The bytes of the sum at an entry's end.
pub const SUM: usize = 8;
/// More than the longest body has: that of a run of as many commands as a text of 2^24 bytes can have, 40 bytes each.
pub const MOST_BODY: usize = 1 << 27;

/// The bytes of a command as in a list, and of one with a number above 255.
const LISTED: usize = 6;
const WIDE: usize = 40;

/// What an entry says, and when it was written.
pub struct Entry<'a> {
    pub time: u64,
    pub what: What<'a>,
}

pub enum What<'a> {
    /// The record with which the history begins. It stands first, and nowhere else.
    Start(&'a [u8]),
    /// Commands that were run.
    Run(Run<'a>),
    /// A record that was changed from outside and adopted. It stands first where nothing of an earlier history could be used.
    Adopted(&'a [u8]),
}

/// Commands that were run: so many of them were accepted, and the next was refused or there is none.
#[derive(Clone, Copy)]
pub struct Run<'a> {
    pub accepted: usize,
    pub refusal: Option<Refusal>,
    /// The commands as in a list, six bytes each.
    listed: &'a [u8],
    /// Those from the first on that has a number above 255, 40 bytes each.
    wide: &'a [u8],
}

const START: u8 = 1;
const RUN: u8 = 2;
const ADOPTED: u8 = 3;

impl<'a> Entry<'a> {
    /// What a body says; none where it makes no sense.
    pub fn read(body: &'a [u8]) -> Option<Entry<'a>> {
        let (kind, rest) = body.split_first()?;
        let (time, rest) = rest.split_first_chunk()?;
        let what = match *kind {
            START => What::Start(rest),
            RUN => What::Run(Run::read(rest)?),
            ADOPTED => What::Adopted(rest),
            _ => return None,
        };
        let time = u64::from_be_bytes(*time);
        Some(Entry { time, what })
    }

    /// The bytes of a body.
    pub fn body(&self) -> Vec<u8> {
        let mut body = Vec::new();
        let kind = match self.what {
            What::Start(_) => START,
            What::Run(_) => RUN,
            What::Adopted(_) => ADOPTED,
        };
        body.push(kind);
        body.extend(self.time.to_be_bytes());
        match &self.what {
            What::Start(record) | What::Adopted(record) => body.extend(*record),
            What::Run(run) => run.write(&mut body),
        }
        body
    }
}

impl<'a> Run<'a> {
    /// Reads what follows a run's time: the number of accepted commands in eight bytes, the refusal in one, the number of commands as in
    /// a list in four, and the commands.
    fn read(bytes: &'a [u8]) -> Option<Run<'a>> {
        let (accepted, rest) = bytes.split_first_chunk()?;
        let ([refusal], rest) = rest.split_first_chunk()?;
        let (count, rest) = rest.split_first_chunk()?;
        let count = usize::try_from(u32::from_be_bytes(*count)).ok()?;
        let (listed, wide) = rest.split_at_checked(count.checked_mul(LISTED)?)?;
        let run = Run {
            accepted: usize::try_from(u64::from_be_bytes(*accepted)).ok()?,
            refusal: match *refusal {
                0 => None,
                number => Some(Refusal::from_number(u64::from(number))?),
            },
            listed,
            wide,
        };
        run.makes_sense().then_some(run)
    }

    /// Whether there are commands, each of the form that it has to have, as many as were accepted, and one more that was refused.
    fn makes_sense(&self) -> bool {
        let first_wide = self.wide_commands().next();
        let ended = match self.refusal {
            None => self.accepted == self.count(),
            Some(_) => self.accepted < self.count(),
        };
        self.count() > 0
            && ended
            && self.accepted <= self.listed.len() / LISTED
            && self.wide.len().is_multiple_of(WIDE)
            && self.listed.iter().step_by(LISTED).all(|byte| *byte == 5)
            && first_wide.is_none_or(|c| !fits(c))
    }

    fn write(&self, body: &mut Vec<u8>) {
        body.extend((self.accepted as u64).to_be_bytes());
        body.push(self.refusal.map_or(0, Refusal::number));
        body.extend(((self.listed.len() / LISTED) as u32).to_be_bytes());
        body.extend(self.listed);
        body.extend(self.wide);
    }

    /// How many commands there are, tried or not.
    pub fn count(&self) -> usize {
        self.listed.len() / LISTED + self.wide.len() / WIDE
    }

    /// The bytes of the accepted commands, six each.
    pub fn accepted_bytes(&self) -> &'a [u8] {
        &self.listed[..LISTED * self.accepted]
    }

    /// The commands in their order.
    pub fn commands(&self) -> impl Iterator<Item = Command> + 'a {
        let listed = self.listed.chunks_exact(LISTED).map(listed_command);
        listed.chain(self.wide_commands())
    }

    fn wide_commands(&self) -> impl Iterator<Item = Command> + 'a {
        self.wide.as_chunks::<WIDE>().0.iter().map(|bytes| {
            let field = |place: usize| {
                let eight = bytes[8 * place..].first_chunk();
                u64::from_be_bytes(*eight.expect("five fields of eight bytes"))
            };
            Command::new(field(0), field(1), field(2), field(3), field(4))
        })
    }
}

/// The command of six bytes, 05 and its five fields.
pub fn listed_command(bytes: &[u8]) -> Command {
    let field = |place: usize| u64::from(bytes[place]);
    Command::new(field(1), field(2), field(3), field(4), field(5))
}

/// Whether a command can stand in a list.
fn fits(c: Command) -> bool {
    fields(c).iter().all(|field| *field <= 255)
}

fn fields(c: Command) -> [u64; 5] {
    [c.code, c.i, c.s, c.o, c.k]
}

/// Commands as the bytes that an entry has.
pub struct RunBytes {
    listed: Vec<u8>,
    wide: Vec<u8>,
}

impl RunBytes {
    pub fn new(commands: impl Iterator<Item = Command>) -> RunBytes {
        let (mut listed, mut wide) = (Vec::new(), Vec::new());
        for c in commands {
            if wide.is_empty() && fits(c) {
                listed.push(5);
                listed.extend(fields(c).map(|field| field as u8));
            } else {
                wide.extend(fields(c).map(u64::to_be_bytes).as_flattened());
            }
        }
        RunBytes { listed, wide }
    }

    /// The run of these commands.
    pub fn run(&self, accepted: usize, refusal: Option<Refusal>) -> Run<'_> {
        Run {
            accepted,
            refusal,
            listed: &self.listed,
            wide: &self.wide,
        }
    }
}

/// The head of an entry with a body of this length at this place of the file.
pub fn head(length: u32, place: u64) -> [u8; HEAD] {
    let mut summed = [0; 12];
    summed[..4].copy_from_slice(&length.to_be_bytes());
    summed[4..].copy_from_slice(&place.to_be_bytes());
    let sum = u64::from(crc_32(&summed));
    (u64::from(length) << 32 | sum).to_be_bytes()
}

/// The length of the body, where a head at this place is right.
pub fn length(bytes: &[u8; HEAD], place: u64) -> Option<usize> {
    let length = u32::from_be_bytes(*bytes.first_chunk().expect("a head has eight bytes"));
    let right = *bytes == head(length, place);
    let length = usize::try_from(length).ok()?;
    (right && length <= MOST_BODY).then_some(length)
}

/// What the sum of an entry is reckoned from: the sum of the entry before it, for the first one the file's first bytes.
pub fn first_sum() -> u64 {
    u64::from_be_bytes(BEGINNING)
}

/// The sum of an entry's head and body, after an entry with this sum.
pub fn sum(before: u64, head_and_body: &[u8]) -> u64 {
    let sum = Crc64::new().with(&before.to_be_bytes());
    sum.with(head_and_body).sum()
}
