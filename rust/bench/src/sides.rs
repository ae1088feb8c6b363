//! The three sides that are compared and timed: the library, plain Rust, and Rust with SSE2 by hand.

use crate::{library, plain, sse2};

/// The refusal, 0 where the call is answered, and the value.
type Answer = (u64, u64);

/// The safety question: record, trust mask, subject, object, right and buffer.
type Safety = fn(&[u8], u64, u64, u64, u64, &mut [u8]) -> Answer;

/// The search of a list for a right: record, list, then subject, object and right, and the copy.
type FirstHeld = fn(&[u8], &[u8], [u64; 3], &mut [u8]) -> Answer;

/// The conversions: record and output.
type Conversion = fn(&[u8], &mut [u8]) -> Answer;

/// The eleven calls of a side. They are pointers on every side, so that a call costs
/// the same on the way.
#[derive(Clone, Copy)]
pub struct Calls {
    pub valid: fn(&[u8]) -> bool,
    pub held: fn(&[u8], u64, u64, u64) -> Answer,
    pub command: fn(&mut [u8], [u64; 5]) -> Answer,
    pub run: fn(&mut [u8], &[u8]) -> Answer,
    pub safety: Safety,
    pub first_held: FirstHeld,
    pub to_version_1: Conversion,
    pub to_version_2: Conversion,
    pub window_empty: fn(&mut [u8]),
    pub window_put: fn(&mut [u8], u64, u64) -> Answer,
    pub window_count: fn(&[u8], u64) -> Answer,
}

pub const LIBRARY: Calls = Calls {
    valid: library::valid,
    held: library::held,
    command: library::command,
    run: library::run,
    safety: library::safety,
    first_held: library::first_held,
    to_version_1: library::to_version_1,
    to_version_2: library::to_version_2,
    window_empty: library::window_empty,
    window_put: library::window_put,
    window_count: library::window_count,
};

pub const PLAIN: Calls = Calls {
    valid: plain::valid,
    held: plain::held,
    command: plain::command,
    run: plain::run,
    safety: plain::safety,
    first_held: plain::first_held,
    to_version_1: plain::to_version_1,
    to_version_2: plain::to_version_2,
    window_empty: plain::window_empty,
    window_put: plain::window_put,
    window_count: plain::window_count,
};

pub const SSE2: Calls = Calls {
    valid: sse2::valid,
    held: sse2::held,
    command: sse2::command,
    run: sse2::run,
    safety: sse2::safety,
    first_held: sse2::first_held,
    to_version_1: sse2::to_version_1,
    to_version_2: sse2::to_version_2,
    window_empty: sse2::window_empty,
    window_put: sse2::window_put,
    window_count: sse2::window_count,
};
