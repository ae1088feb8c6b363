//! Lists of commands as bytes.

use crate::numbers::Numbers;
use crate::plain;
use crate::size::Size;
use crate::stations::{lowest_owner, set_right};

/// Commands as a list.
pub fn encode(commands: &[[u64; 5]]) -> Vec<u8> {
    let mut list = vec![1];
    list.extend_from_slice(&(6 * commands.len() as u32).to_be_bytes());
    for command in commands {
        list.push(5);
        list.extend(command.map(|field| field as u8));
    }
    list
}

/// A command whose fields are of the code's kinds and in bounds, begun by an owner where there is one. Most deletes are of a bit that is set.
pub fn likely_command(numbers: &mut Numbers, record: &[u8], code: usize) -> [u64; 5] {
    let size = Size::of(record);
    let (n, p) = (size.n, size.p);
    let o = match code {
        6 => numbers.below(n),
        7 | 10 | 11 => n + numbers.below(p.max(1)),
        12 | 13 => 0,
        _ => numbers.below(n + p),
    };
    let s = match code {
        10 | 11 => 0,
        _ => numbers.below(n),
    };
    let k = match code {
        1 | 2 | 4 | 5 | 8 | 9 => numbers.below(size.basics()),
        _ => 0,
    };
    let set = match code {
        8 | 9 if !numbers.once_in(4) => set_right(numbers, record, code - 8),
        _ => None,
    };
    let [s, o, k] = set.unwrap_or([s, o, k]);
    let over = if code == 13 { s } else { o };
    let owner = (over < n + p).then(|| lowest_owner(record, over)).flatten();
    let i = owner.unwrap_or(numbers.below(n));
    [code, i, s, o, k].map(|field| field as u64)
}

/// Commands of the thirteen codes in turn, each of which is accepted after those before it. A code for which none is found
/// soon is left out in its turn. Where U is the only name none is accepted, and there are none.
pub fn accepted_commands(numbers: &mut Numbers, start: &[u8], count: usize) -> Vec<[u64; 5]> {
    let mut record = start.to_vec();
    let mut commands = Vec::new();
    let mut turn = 0;
    let only_u = Size::of(start).columns() == 1;
    while commands.len() < count && !only_u {
        let code = 1 + turn % 13;
        turn += 1;
        for _ in 0..20 {
            let command = likely_command(numbers, &record, code);
            if plain::command(&mut record, command).0 == 0 {
                commands.push(command);
                break;
            }
        }
    }
    commands
}
