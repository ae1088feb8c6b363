//! Times the proved library beside Rust written for speed. Run it in the folder `rust`, with the archive in place:
//!
//!     cargo run --release -p bench
//!
//! Plain Rust is safe, without intrinsics, and vectorised by the compiler; beside it stands the same Rust with SSE2 by hand.
//! It first compares all sides on seeded inputs and stops at a difference. Rounds of the sides, over all sizes of a call or
//! all calls on a shape, are measured in turn; a time is that of the shortest round. The caches hold the record, and no buffer
//! is cleared between calls.

#![allow(
    clippy::duplicate_mod,
    reason = "the folder fast is two modules, with lanes of two kinds"
)]

mod cases;
mod compare;
mod library;
mod lists;
mod measure;
mod numbers;
mod plain;
mod report;
mod sides;
mod size;
mod sse2;
mod stations;
mod windows;

use cases::{LONG, SHORT};
use report::{by_shape, by_size, heading, on_window, window_heading};
use size::{VERSIONS, largest};
use stations::Shape;

/// The eight calls on flat records of each version and size.
fn calls() {
    let flat = Shape::Flat;
    heading("Calls by size (flat records; code 3 over a subject on a chain), nanoseconds a call");
    by_size("valid", 1, |size| cases::valid(flat, size));
    by_size("held", 1, |size| cases::held(flat, size));
    by_size("command 4", 1, |size| cases::grant(flat, size));
    by_size("command 3", 1, cases::transfer_own);
    by_size("command 3, log", 1, |size| cases::transfer_log(flat, size));
    by_size("run, 10 grants", 1, |size| cases::run_of_grants(size, 10));
    by_size("safety, safe", 1, |size| cases::all_trusted(flat, size));
    by_size("safety, leaks", 1, |size| cases::root_untrusted(flat, size));
    by_size("first held, 10", 1, |size| {
        cases::by_last_of_grants(size, 10)
    });
    by_size("to version 1", 1, cases::to_version_1);
    by_size("to version 2", 1, cases::to_version_2);
}

/// Long lists at each version and size.
fn lists() {
    heading(
        "Runs of 10,000 commands, nanoseconds a command (all but grants: on a new copy each time)",
    );
    by_size("grants", LONG, |size| cases::run_of_grants(size, LONG));
    by_size("logs change owner", LONG, |size| {
        cases::run_of_transfers(size, LONG)
    });
    by_size("13 codes", LONG, |size| cases::run_of_all_codes(size, LONG));
}

/// Lists searched for the first command after which a right is held, beside runs of the same lists, at each version and size.
fn searches() {
    for (count, text) in [(SHORT, "1,000"), (LONG, "10,000")] {
        heading(&format!(
            "Lists of {text} commands run, and searched for the first after which a right is held, nanoseconds a command"
        ));
        by_size("run, grants", count, |size| {
            cases::run_of_grants(size, count)
        });
        by_size("never, grants", count, |size| {
            cases::never_by_grants(size, count)
        });
        by_size("by last, grants", count, |size| {
            cases::by_last_of_grants(size, count)
        });
        by_size("run, 13 codes", count, |size| {
            cases::run_of_all_codes(size, count)
        });
        by_size("never, 13 codes", count, |size| {
            cases::never_by_all_codes(size, count)
        });
    }
}

/// The three calls on a window.
fn window() {
    window_heading();
    on_window("window empty", 1, cases::window_empty());
    on_window("window put", LONG, cases::window_put());
    on_window("window count", 64, cases::window_count());
}

fn main() {
    compare::compare_all();
    println!(
        "The library and both Rust sides answer alike on {} seeded records, eight calls each, and on a window with {} \
         seeded entries.",
        compare::RECORDS,
        compare::ENTRIES
    );
    calls();
    lists();
    searches();
    VERSIONS.into_iter().map(largest).for_each(by_shape);
    window();
}
