//! The tables that are printed.

use crate::cases;
use crate::measure::{Case, Times, in_turn};
use crate::size::{Size, VERSIONS, sizes};
use crate::stations::Shape;

/// The heading of a table over sizes.
pub fn heading(title: &str) {
    println!("\n{title}");
    println!(
        "{:<18}{:>7}{:>9}{}{:>15}{:>13}",
        "call", "version", "n, p", TIMES_HEADING, "library grows", "plain grows"
    );
}

/// The heading of the columns that `times` fills.
const TIMES_HEADING: &str = "   library  plain Rust  ratio  SSE2 Rust  ratio";

/// The times of the three sides, and how many times as long as each Rust the library takes.
fn times(times: &Times) -> String {
    format!(
        "{:>10.1}{:>12.1}{:>7.2}{:>11.1}{:>7.2}",
        times.library,
        times.plain,
        times.library / times.plain,
        times.sse2,
        times.library / times.sse2
    )
}

/// How many times as long as at the size before, where there is one.
fn growth(now: f64, before: Option<f64>) -> String {
    match before {
        Some(before) => format!("x {:.1}", now / before),
        None => String::new(),
    }
}

/// One line for each version and size, of a call that does so many parts.
pub fn by_size(call: &str, parts: usize, case: impl Fn(Size) -> Case) {
    let all: Vec<Size> = VERSIONS.into_iter().flat_map(sizes).collect();
    let lines = in_turn(all.iter().map(|&size| case(size)).collect(), parts);
    let mut before: Option<(usize, Times)> = None;
    for (size, now) in all.into_iter().zip(lines) {
        let smaller = before.filter(|(version, _)| *version == size.version);
        println!(
            "{:<18}{:>7}{:>9}{}{:>15}{:>13}",
            call,
            size.version,
            format!("{}, {}", size.n, size.p),
            times(&now),
            growth(now.library, smaller.map(|(_, times)| times.library)),
            growth(now.plain, smaller.map(|(_, times)| times.plain))
        );
        before = Some((size.version, now));
    }
}

/// Validity and the safety question on each shape of one size, with each time over that of validity.
pub fn by_shape(size: Size) {
    println!(
        "\nQuestions by shape at {}, {}, version {}, nanoseconds a call",
        size.n, size.p, size.version
    );
    println!(
        "{:<22}{:<13}{}{:>17}{:>15}",
        "shape", "call", TIMES_HEADING, "library / valid", "plain / valid"
    );
    for shape in Shape::ALL {
        let all = vec![
            cases::valid(shape, size),
            cases::all_trusted(shape, size),
            cases::root_untrusted(shape, size),
        ];
        let lines = in_turn(all, 1);
        for (call, line) in ["valid", "all trusted", "U untrusted"].iter().zip(&lines) {
            println!(
                "{:<22}{:<13}{}{:>17.2}{:>15.2}",
                shape.name(),
                call,
                times(line),
                line.library / lines[0].library,
                line.plain / lines[0].plain
            );
        }
    }
}

/// The heading of the calls on a window. They use no lanes, so that SSE2 by hand is the same as plain Rust.
pub fn window_heading() {
    println!(
        "\nCalls on a window of late refusals that is full, nanoseconds a call (entries of random numbers, half of them refused)"
    );
    println!("{:<16}   library  plain Rust  ratio", "call");
}

/// One line for a call on a window, where each case does so many.
pub fn on_window(call: &str, parts: usize, case: Case) {
    for now in in_turn(vec![case], parts) {
        let ratio = now.library / now.plain;
        println!(
            "{call:<16}{:>10.1}{:>12.1}{ratio:>7.2}",
            now.library, now.plain
        );
    }
}
