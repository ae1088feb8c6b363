//! The eleven exports of the archive on slices. Each answer is the refusal and the value, as the Rust side gives them.

use bunvespo::raw;

/// An answer as a pair.
fn pair(answer: raw::Answer) -> (u64, u64) {
    (answer.refusal, answer.value)
}

pub fn valid(record: &[u8]) -> bool {
    // SAFETY: the pointer and the length are those of a slice, which the call only reads.
    unsafe { raw::bunvespo_valid(record.as_ptr(), record.len()) == 1 }
}

pub fn held(record: &[u8], s: u64, o: u64, right: u64) -> (u64, u64) {
    // SAFETY: as in `valid`.
    pair(unsafe { raw::bunvespo_held(record.as_ptr(), record.len(), s, o, right) })
}

pub fn command(record: &mut [u8], [code, i, s, o, k]: [u64; 5]) -> (u64, u64) {
    let (at, length) = (record.as_mut_ptr(), record.len());
    // SAFETY: the pointer and the length are those of a slice that is lent to be written.
    pair(unsafe { raw::bunvespo_command(at, length, code, i, s, o, k) })
}

pub fn run(record: &mut [u8], list: &[u8]) -> (u64, u64) {
    let (at, length) = (record.as_mut_ptr(), record.len());
    // SAFETY: the pointers and lengths are those of two slices that don't overlap.
    pair(unsafe { raw::bunvespo_run(at, length, list.as_ptr(), list.len()) })
}

pub fn safety(record: &[u8], trust: u64, s: u64, o: u64, right: u64, out: &mut [u8]) -> (u64, u64) {
    let (at, length) = (record.as_ptr(), record.len());
    let (to, room) = (out.as_mut_ptr(), out.len());
    // SAFETY: as in `run`.
    pair(unsafe { raw::bunvespo_safety(at, length, trust, s, o, right, to, room) })
}

pub fn first_held(
    record: &[u8],
    list: &[u8],
    [s, o, right]: [u64; 3],
    copy: &mut [u8],
) -> (u64, u64) {
    let (at, length) = (record.as_ptr(), record.len());
    let (list_at, list_length) = (list.as_ptr(), list.len());
    let (to, room) = (copy.as_mut_ptr(), copy.len());
    // SAFETY: the pointers and lengths are those of three slices, of which the last overlaps no other.
    pair(unsafe {
        raw::bunvespo_first_held(at, length, list_at, list_length, s, o, right, to, room)
    })
}

pub fn to_version_1(record: &[u8], out: &mut [u8]) -> (u64, u64) {
    let (at, length) = (record.as_ptr(), record.len());
    // SAFETY: as in `run`.
    pair(unsafe { raw::bunvespo_to_version_1(at, length, out.as_mut_ptr(), out.len()) })
}

pub fn to_version_2(record: &[u8], out: &mut [u8]) -> (u64, u64) {
    let (at, length) = (record.as_ptr(), record.len());
    // SAFETY: as in `run`.
    pair(unsafe { raw::bunvespo_to_version_2(at, length, out.as_mut_ptr(), out.len()) })
}

pub fn window_empty(window: &mut [u8]) {
    // SAFETY: as in `command`.
    unsafe { raw::bunvespo_window_empty(window.as_mut_ptr(), window.len()) }
}

pub fn window_put(window: &mut [u8], initiator: u64, outcome: u64) -> (u64, u64) {
    let (at, length) = (window.as_mut_ptr(), window.len());
    // SAFETY: as in `command`.
    pair(unsafe { raw::bunvespo_window_put(at, length, initiator, outcome) })
}

pub fn window_count(window: &[u8], number: u64) -> (u64, u64) {
    // SAFETY: as in `valid`.
    pair(unsafe { raw::bunvespo_window_count(window.as_ptr(), window.len(), number) })
}
