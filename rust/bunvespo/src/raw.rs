//! The eleven exports of the archive, as `include/bunvespo.h` declares them. A slice is a pointer and then its length.
//!
//! # Safety
//! Each pointer and length are those of bytes that may be read, or written where the pointer is `*mut`, and that overlap no other
//! slice of the call that is written. With length 0 any pointer will do, null too.

/// A refusal, 0 where the call is answered, and a value.
#[repr(C)]
#[derive(Clone, Copy, Debug, PartialEq, Eq)]
pub struct Answer {
    /// 0, or the number of a [`Refusal`](crate::Refusal).
    pub refusal: u64,
    /// What each call says that it is.
    pub value: u64,
}

unsafe extern "C" {
    /// 1 if the record is valid, else 0.
    pub fn bunvespo_valid(record: *const u8, record_len: usize) -> u64;

    /// The value is 1 if the right is held, else 0.
    pub fn bunvespo_held(
        record: *const u8,
        record_len: usize,
        s: u64,
        o: u64,
        right: u64,
    ) -> Answer;

    /// The value is the number of owner links that the walk followed.
    pub fn bunvespo_command(
        record: *mut u8,
        record_len: usize,
        code: u64,
        i: u64,
        s: u64,
        o: u64,
        k: u64,
    ) -> Answer;

    /// The value is the number of commands accepted.
    pub fn bunvespo_run(
        record: *mut u8,
        record_len: usize,
        list: *const u8,
        list_len: usize,
    ) -> Answer;

    /// The value is 0 for safe, and N + 1 for leaks by N commands.
    pub fn bunvespo_safety(
        record: *const u8,
        record_len: usize,
        trust: u64,
        s: u64,
        o: u64,
        right: u64,
        out: *mut u8,
        out_len: usize,
    ) -> Answer;

    /// The value is 0 where the right is held after none of the commands, and m + 1 where it is first held after m of them.
    pub fn bunvespo_first_held(
        record: *const u8,
        record_len: usize,
        list: *const u8,
        list_len: usize,
        s: u64,
        o: u64,
        right: u64,
        copy: *mut u8,
        copy_len: usize,
    ) -> Answer;

    /// The value is the number of bytes of the new record, which is of version 1.
    pub fn bunvespo_to_version_1(
        record: *const u8,
        record_len: usize,
        out: *mut u8,
        out_len: usize,
    ) -> Answer;

    /// The value is the number of bytes of the new record, which is of version 2.
    pub fn bunvespo_to_version_2(
        record: *const u8,
        record_len: usize,
        out: *mut u8,
        out_len: usize,
    ) -> Answer;

    /// Bytes of a window's length become an empty window.
    pub fn bunvespo_window_empty(window: *mut u8, window_len: usize);

    /// The value is 0.
    pub fn bunvespo_window_put(
        window: *mut u8,
        window_len: usize,
        initiator: u64,
        outcome: u64,
    ) -> Answer;

    /// The value is the count.
    pub fn bunvespo_window_count(window: *const u8, window_len: usize, number: u64) -> Answer;
}
