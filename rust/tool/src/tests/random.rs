//! Seeded random stations of both versions, and commands.

use std::hash::{DefaultHasher, Hash, Hasher};

use crate::library::{
    Basic, Command, Header, MOST_PLAIN, MOST_SUBJECTS, Right, command, new_record,
};
use crate::version::Version;

/// The most logins and the most logs of a station.
pub const LARGEST: (u64, u64) = (MOST_SUBJECTS as u64, MOST_PLAIN as u64);

/// A stream of numbers: the hashes of a seed and a count.
pub struct Numbers {
    seed: u64,
    count: u64,
}

impl Numbers {
    pub fn new(seed: u64) -> Numbers {
        Numbers { seed, count: 0 }
    }

    /// A number below the bound, which is not 0.
    pub fn below(&mut self, bound: u64) -> u64 {
        self.count += 1;
        let mut hasher = DefaultHasher::new();
        (self.seed, self.count).hash(&mut hasher);
        hasher.finish() % bound
    }

    /// One of some values.
    pub fn pick<T: Copy>(&mut self, from: &[T]) -> T {
        from[self.below(from.len() as u64) as usize]
    }
}

/// A valid record of either version: a new station, and commands on it of which the library takes what it accepts.
pub fn station(numbers: &mut Numbers) -> Vec<u8> {
    let (n, p) = match numbers.below(40) {
        0 => LARGEST,
        1..4 => (1 + numbers.below(LARGEST.0), numbers.below(LARGEST.1 + 1)),
        _ => (1 + numbers.below(6), numbers.below(5)),
    };
    let version = numbers.pick(&[Version::One, Version::Two]);
    let new = new_record(n, p).and_then(|record| version.convert(&record));
    let mut record = new.expect("the sizes are in range");
    for _ in 0..numbers.below(20 + 6 * n) {
        let c = any_command(numbers, &record);
        let c = match numbers.below(8) {
            0 | 1 => Command::create_subject(c.i, c.s),
            2 | 3 => Command::create_object(c.i, c.o),
            4 | 5 => any_grant(numbers, &record),
            _ => c,
        };
        let _ = command(&mut record, c);
    }
    record
}

/// A grant of any basic right over a column by its owner, where it has one, so that more are accepted.
fn any_grant(numbers: &mut Numbers, record: &[u8]) -> Command {
    let header = Header::read(record).expect("a record has a header");
    let n = u64::from(header.n);
    let (s, o) = (numbers.below(n), numbers.below(u64::from(header.columns())));
    let owns = |i: &u64| Right::Own.in_cell(header.cell(record, *i, o).unwrap_or(0));
    let owner = (0..n).find(owns).unwrap_or(0);
    let k = numbers.below(header.basic_rights());
    Command::new(numbers.pick(&[4, 5]), owner, s, o, k)
}

/// A delete by a login itself of a basic right that it has over a column: the next such right from any place of the record on.
fn own_deletion(numbers: &mut Numbers, record: &[u8]) -> Option<Command> {
    let header = Header::read(record).expect("a record has a header");
    let (columns, basics) = (u64::from(header.columns()), header.basic_rights());
    let places = u64::from(header.n) * columns * basics;
    let from = numbers.below(places);
    let (code, form) =
        numbers.pick(&[(8, Right::Plain as fn(Basic) -> Right), (9, Right::Starred)]);
    let mut rights = (from..from + places).map(|place| {
        let cell = place % places / basics;
        (cell / columns, cell % columns, place % basics)
    });
    let (s, o, k) = rights.find(|(s, o, k)| {
        let right = Basic::from_number(*k).map(form).expect("k is in range");
        right.in_cell(header.cell(record, *s, *o).unwrap_or(0))
    })?;
    Some(Command::new(code, s, s, o, k))
}

/// A command over a record's names and basic rights, mostly with 0 where its code uses nothing. Of the deletes half are of a right that is set,
/// where there is one.
pub fn any_command(numbers: &mut Numbers, record: &[u8]) -> Command {
    let header = Header::read(record).expect("a record has a header");
    let (n, columns) = (u64::from(header.n), u64::from(header.columns()));
    let code = 1 + numbers.below(13);
    let (i, s, o) = (numbers.below(n), numbers.below(n), numbers.below(columns));
    let k = if matches!(code, 1 | 2 | 4 | 5 | 8 | 9) {
        numbers.below(header.basic_rights())
    } else {
        0
    };
    let set = match code {
        8 | 9 if numbers.below(2) == 0 => own_deletion(numbers, record),
        _ => None,
    };
    if let Some(deletion) = set {
        return deletion;
    }
    match code {
        10 | 11 => Command::new(code, i, 0, o, k),
        12 | 13 => Command::new(code, i, s, 0, k),
        _ => Command::new(code, i, s, o, k),
    }
}
