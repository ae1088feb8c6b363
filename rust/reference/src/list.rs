//! A list of commands as bytes (Manual 6.1).

use crate::Refusal;

/// The most that L of a list may be.
pub const LIST_MAXIMUM: usize = 60_000;

/// The fields of a list's commands in turn, or refusal 16 (Manual 7.1). The whole list is looked at before its
/// first command.
pub fn read_list(list: &[u8]) -> Result<Vec<[u64; 5]>, Refusal> {
    if list.len() < 5 || list[0] != 1 {
        return Err(16);
    }
    let l = u32::from_be_bytes([list[1], list[2], list[3], list[4]]) as usize;
    if l != list.len() - 5 || l > LIST_MAXIMUM || !l.is_multiple_of(6) {
        return Err(16);
    }
    let records = list[5..].chunks_exact(6);
    if records.clone().any(|record| record[0] != 5) {
        return Err(16);
    }
    Ok(records
        .map(|r| [r[1], r[2], r[3], r[4], r[5]].map(u64::from))
        .collect())
}

/// Writes commands as a list.
pub fn write_list(commands: &[[u8; 5]]) -> Vec<u8> {
    let mut list = vec![1];
    list.extend(((6 * commands.len()) as u32).to_be_bytes());
    for fields in commands {
        list.push(5);
        list.extend(fields);
    }
    list
}
