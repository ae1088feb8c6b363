//! Commands tried on a record, each alone and in a run of its own.

use reference::{command, run, write_list};

use crate::stations::answer;

/// Asserts that a command is accepted with 0 links and leaves this record, alone and in a run.
pub fn leaves(before: &[u8], fields: [u8; 5], after: &[u8]) {
    let mut record = before.to_vec();
    let accepted = command(&mut record, fields.map(u64::from));
    assert_eq!(accepted, answer(0, 0), "{fields:?}");
    assert_eq!(record, after, "{fields:?}");
    let mut record = before.to_vec();
    assert_eq!(run(&mut record, &write_list(&[fields])), answer(0, 1));
    assert_eq!(record, after, "{fields:?} in a run");
}

/// Asserts that a command is refused with 0 links and leaves the record as it was, alone and in a run.
pub fn refused(before: &[u8], fields: [u8; 5], refusal: u64) {
    let mut record = before.to_vec();
    let given = command(&mut record, fields.map(u64::from));
    assert_eq!(given, answer(refusal, 0), "{fields:?}");
    assert_eq!(run(&mut record, &write_list(&[fields])), answer(refusal, 0));
    assert_eq!(record, before, "{fields:?}");
}
