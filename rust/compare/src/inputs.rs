//! Numbers, commands, lists and questions: likely ones, random ones, and ones made to be wrong at a bound.

use reference::{
    LIST_MAXIMUM, Name, Station, U, allowed, buffer_minimum, change, decode_in, write_list,
};

use crate::facts::Facts;
use crate::matrix::{
    CONTROL, FORMER_MOST_PLAIN, FORMER_MOST_SUBJECTS, MOST_PLAIN, MOST_SUBJECTS, OWN, VERSIONS,
    basic_rights, rights,
};
use crate::random::Random;

/// The bounds of k and of the right in each version, and of the code; of a record, now and formerly; of widths.
const BOUNDS: [u64; 13] = [
    7,
    15,
    16,
    32,
    14,
    MOST_SUBJECTS,
    FORMER_MOST_SUBJECTS,
    MOST_PLAIN,
    MOST_SUBJECTS + MOST_PLAIN,
    FORMER_MOST_PLAIN,
    256,
    65_536,
    1 << 32,
];

/// A number near the field's bound (the first number over it), near another bound, or near a width of bits; several
/// equal the legal one modulo such a width.
fn extreme(legal: u64, bound: u64, random: &mut Random) -> u64 {
    let other = random.pick(&BOUNDS);
    let width = random.pick(&[8, 16, 31, 32, 33, 48, 62, 63]);
    match random.below(6) {
        0 => bound,
        1 => random.pick(&[bound - 1, bound + 1, other - 1, other]),
        2 => legal.wrapping_add(1 << width),
        3 => random.pick(&[u64::MAX, u64::MAX - legal, legal.wrapping_neg(), 1 << 63]),
        4 => legal.wrapping_add(random.pick(&[1, u64::MAX, bound, bound.wrapping_neg()])),
        _ => random.next() >> random.below(64),
    }
}

/// A command as five numbers: likely to be accepted, random within the bounds, or with some numbers made extreme.
pub fn command(station: &Station, facts: &Facts, random: &mut Random) -> [u64; 5] {
    let (n, columns) = (station.n, station.n + station.p);
    let bounds = [14, n, n, columns, facts.basic_rights];
    let mut fields = byte_command(station, facts, random);
    if random.one_in(5) {
        for _ in 0..1 + random.below(2) {
            let field = random.below(5) as usize;
            fields[field] = extreme(fields[field], bounds[field], random);
        }
    }
    fields
}

/// A command whose numbers fit bytes: likely to be accepted, or random within the bounds.
fn byte_command(station: &Station, facts: &Facts, random: &mut Random) -> [u64; 5] {
    let (n, p) = (station.n, station.p);
    let code = 1 + random.below(13);
    let any = [
        code,
        random.below(n),
        random.below(n),
        random.below(n + p),
        below_of_version(basic_rights, station, random),
    ];
    let likely = facts.likely_command(code, random);
    match random.below(6) {
        0..=3 => likely.unwrap_or(any),
        4 => with_unused_zero(any),
        _ => any,
    }
}

/// A number below a bound that the station's version has, seldom below that of the other version.
fn below_of_version(bound: fn(u8) -> u64, station: &Station, random: &mut Random) -> u64 {
    let version = if random.one_in(16) {
        random.pick(&VERSIONS)
    } else {
        station.version.byte()
    };
    random.below(bound(version))
}

/// The command with 0 in each field that its code does not use.
fn with_unused_zero([code, i, s, o, k]: [u64; 5]) -> [u64; 5] {
    let uses = reference::uses(code).expect("the code is 1 to 13");
    let s = if uses.s { s } else { 0 };
    let o = if uses.o { o } else { 0 };
    let k = if uses.k { k } else { 0 };
    [code, i, s, o, k]
}

/// One command on a station: whether it is accepted.
pub fn step(station: &mut Station, fields: [u64; 5]) -> bool {
    let decoded = decode_in(station.version, fields, station.n, station.p);
    let accepted = decoded
        .ok()
        .filter(|command| allowed(&station.state, command).is_ok());
    if let Some(command) = accepted {
        change(&mut station.state, &command);
    }
    accepted.is_some()
}

/// As many commands for a station as asked: accepted ones, and of the refused ones met between them so many in a
/// hundred. Where U is the only name no command is accepted, and all that are met are taken.
fn commands_in_turn(
    station: &Station,
    count: u64,
    refused_in_hundred: u64,
    random: &mut Random,
) -> Vec<[u8; 5]> {
    let only_u = station.n + station.p == 1;
    let refused_in_hundred = if only_u { 100 } else { refused_in_hundred };
    let mut station = station.clone();
    let mut commands = Vec::new();
    while (commands.len() as u64) < count {
        let facts = Facts::of(&station);
        let mut fields = byte_command(&station, &facts, random);
        if random.one_in(50) {
            let field = random.below(5) as usize;
            fields[field] = random.below(256);
        }
        if step(&mut station, fields) || random.below(100) < refused_in_hundred {
            commands.push(fields.map(|field| field as u8));
        }
    }
    commands
}

/// A list for a station, as bytes; one in four has a wrong form.
pub fn list(station: &Station, random: &mut Random) -> Vec<u8> {
    let count = match random.below(8) {
        0 => 0,
        1 => 1,
        2 => 1 + random.below(40),
        _ => 1 + random.below(8),
    };
    let refused_in_hundred = random.pick(&[0, 0, 5, 50]);
    let commands = commands_in_turn(station, count, refused_in_hundred, random);
    let mut list = write_list(&commands);
    if random.one_in(4) {
        damage_list(&mut list, random);
    }
    list
}

/// A list of about the most commands that a list may have: one below, the most, and one beyond. All are accepted, or
/// the last is refused, or its length byte is wrong, for which the list is refused before the first one runs.
pub fn longest_list(station: &Station, random: &mut Random) -> Vec<u8> {
    let most = LIST_MAXIMUM as u64 / 6;
    let count = random.pick(&[most - 1, most, most, most + 1]);
    let mut list = write_list(&commands_in_turn(station, count, 0, random));
    let last = list.len() - 6;
    match random.below(4) {
        0 => list[last] = 6,
        1 => list[last + 1] = 14,
        _ => (),
    }
    list
}

/// Makes the form of a list wrong.
fn damage_list(list: &mut Vec<u8>, random: &mut Random) {
    let length = list.len() as u64;
    match random.below(7) {
        0 => list[0] = random.pick(&[0, 2, 255]),
        1 => list.truncate(random.below(length) as usize),
        2 => list.extend((0..1 + random.below(7)).map(|_| 5)),
        3 => {
            // A count that fits the true length and is no multiple of 6.
            list.extend((0..1 + random.below(5)).map(|_| 5));
            let count = list.len() as u32 - 5;
            list[1..5].copy_from_slice(&count.to_be_bytes());
        }
        4 => {
            let count = (length - 5) as u32;
            let wrong = random.pick(&[count + 6, count + 1, count.swap_bytes(), count ^ 1 << 16]);
            list[1..5].copy_from_slice(&wrong.to_be_bytes());
        }
        5 if length > 5 => {
            let record = random.below((length - 5) / 6) as usize;
            list[5 + 6 * record] = random.pick(&[0, 4, 6, 0x85, 255]);
        }
        _ => {
            let byte = random.below(length) as usize;
            list[byte] = random.next() as u8;
        }
    }
}

/// s, o and a right: of a bit that is set, or any within their bounds; sometimes with one of them made extreme.
pub fn held_question(station: &Station, random: &mut Random) -> [u64; 3] {
    let mut numbers = bounds(station).map(|bound| random.below(bound));
    numbers[2] = below_of_version(rights, station, random);
    if random.one_in(3) {
        numbers = set_bit(station, random);
    }
    sometimes_extreme(station, numbers, random)
}

/// The first s, o and right that are out of range.
fn bounds(station: &Station) -> [u64; 3] {
    let version = station.version.byte();
    [station.n, station.n + station.p, rights(version)]
}

/// s, o and a right, sometimes with one of them made extreme.
pub fn sometimes_extreme(
    station: &Station,
    mut numbers: [u64; 3],
    random: &mut Random,
) -> [u64; 3] {
    if random.one_in(5) {
        let at = random.below(3) as usize;
        numbers[at] = extreme(numbers[at], bounds(station)[at], random);
    }
    numbers
}

/// The row, the column and the code of a bit that is set, or of the one below it, so that a plain basic right is also
/// asked where the starred bit alone is set.
fn set_bit(station: &Station, random: &mut Random) -> [u64; 3] {
    let cells = station.state.cells().count() as u64;
    let at = random.below(cells) as usize;
    let (name, row, cell) = station.state.cells().nth(at).expect("U controls itself");
    let (Name::Subject(column) | Name::Plain(column)) = name;
    let all = 0..rights(station.version.byte());
    let codes: Vec<u64> = all.filter(|code| cell.0 >> code & 1 == 1).collect();
    let code = random.pick(&codes);
    [row, column, code.saturating_sub(random.below(2))]
}

/// A trust mask: none, all, all but one, U alone, or any subjects trusted; sometimes with bits from n on.
fn trust(n: u64, random: &mut Random) -> u64 {
    let all = u64::MAX >> (64 - n);
    let within = match random.below(6) {
        0 => 0,
        1 => all,
        2 => all & !1,
        3 => all & !(1 << random.below(n)),
        4 => random.next() & all,
        _ => (random.next() | random.next()) & all,
    };
    match random.below(16) {
        0 => within | 1u64.wrapping_shl(n as u32),
        1 => within | 1 << random.below(64),
        _ => within,
    }
}

/// The trust mask, s, o and a right.
pub fn safety_question(station: &Station, random: &mut Random) -> [u64; 4] {
    if random.one_in(6) {
        return deep_question(station, random);
    }
    let [s, o, right] = held_question(station, random);
    [trust(station.n, random), s, o, right]
}

/// A question whose leak takes many commands: o is deep below U, and all or nearly all others are trusted.
fn deep_question(station: &Station, random: &mut Random) -> [u64; 4] {
    let links = |s: &u64| station.state.walk(*s, Name::Subject(U)).links;
    let subjects = (0..station.n).filter(|s| station.state.exists(Name::Subject(*s)));
    let deepest = subjects.max_by_key(links).expect("U exists");
    let owned = station.state.owned_by(deepest);
    let o = match owned.first() {
        Some(Name::Plain(column)) if random.one_in(2) => *column,
        _ => deepest,
    };
    let all = u64::MAX >> (64 - station.n);
    let untrusted = 1 | 1 << (random.below(station.n) * random.below(2));
    let basic = 2 + random.below(rights(station.version.byte()) - 2);
    [
        all & !untrusted,
        random.below(station.n),
        o,
        random.pick(&[OWN, CONTROL, basic, basic]),
    ]
}

/// A length of the output buffer: the least, one less, one more, or another.
pub fn buffer_length(n: u64, random: &mut Random) -> usize {
    let least = buffer_minimum(n);
    match random.below(16) {
        0 => least - 1,
        1 => least + 1,
        2 => random.below(least as u64) as usize,
        3 => 0,
        4 => least + random.below(600) as usize,
        _ => least,
    }
}
