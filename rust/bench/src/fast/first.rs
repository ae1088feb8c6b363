//! The first command of a list after which a right is held.

use super::cell;
use super::list::commands;
use super::scan::scan;
use super::station::Station;
use super::tables::{Owners, Tables};
use super::{held_mask, question_fits, wide};

/// The commands of a list tried in turn on a copy: the refusal, and one more than the commands after which the right is first held, 0 where
/// it never is.
pub fn first_held(record: &[u8], list: &[u8], question: [u64; 3], copy: &mut [u8]) -> (u64, u64) {
    if wide(record) {
        first_held_in::<4>(record, list, question, copy)
    } else {
        first_held_in::<2>(record, list, question, copy)
    }
}

#[inline(always)]
fn first_held_in<const W: usize>(
    record: &[u8],
    list: &[u8],
    [s, o, right]: [u64; 3],
    copy: &mut [u8],
) -> (u64, u64) {
    let mut tables = Tables::new(Owners::new());
    if let Err(refusal) = scan::<W, _>(record, &mut tables) {
        return (refusal, 0);
    }
    if !question_fits::<W>(record, s, o, right) {
        return (7, 0);
    }
    let Some(copy) = copy.get_mut(..record.len()) else {
        return (15, 0);
    };
    let Some(commands) = commands(list) else {
        return (16, 0);
    };
    copy.copy_from_slice(record);
    let mut station = Station::<W>::new(copy, &mut tables);
    let (s, o, mask) = (s as usize, o as usize, cell::bits::<W>(held_mask(right)));
    if cell::number(*station.cell(s, o)) & mask != 0 {
        return (0, 1);
    }
    for (before, [_, fields @ ..]) in commands.iter().enumerate() {
        if station.accepted(fields).is_none() {
            break;
        }
        if cell::number(*station.cell(s, o)) & mask != 0 {
            return (0, before as u64 + 2);
        }
    }
    (0, 0)
}
