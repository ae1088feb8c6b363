//! Where the program ends itself for tests, as a loss of power would end it.

use std::sync::atomic::{AtomicU64, Ordering};

/// The names of the three steps of writing a new file: half of it is there, it is synced, it has its name.
pub type Steps = [&'static str; 3];

/// Those of a record, a window or a page, and of a history.
pub const REPLACED: Steps = ["half", "written", "renamed"];
pub const HISTORY: Steps = ["history half", "history written", "history renamed"];

/// How many steps were passed.
static PASSED: AtomicU64 = AtomicU64::new(0);

/// Ends the program at once at the step that a test names, or, where it gives a number, at that step of all that are passed.
pub fn stop_for_test(step: &str) {
    let passed = PASSED.fetch_add(1, Ordering::Relaxed) + 1;
    let is_here = |wanted: std::ffi::OsString| {
        wanted == step || wanted.to_str().and_then(|wanted| wanted.parse().ok()) == Some(passed)
    };
    if std::env::var_os("BUNVESPO_TEST_STOP").is_some_and(is_here) {
        std::process::abort();
    }
}
