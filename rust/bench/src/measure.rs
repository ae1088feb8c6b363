//! Times of several calls on three sides, measured in turn so that what else the machine does reaches all of them alike.

use std::time::{Duration, Instant};

use crate::sides::{Calls, LIBRARY, PLAIN, SSE2};

/// Rounds of each side of each case.
const ROUNDS: usize = 401;

/// How long a round should take: short, so that many rounds are not interrupted.
const ROUND: Duration = Duration::from_micros(40);

/// A function that makes so many calls and says how long they took.
type Side = Box<dyn FnMut(u32) -> Duration>;

/// One call on all sides: the library, plain Rust and SSE2.
pub struct Case([Side; 3]);

/// The time that so many calls take.
fn timed(mut call: impl FnMut() + 'static) -> Side {
    Box::new(move |calls| {
        let start = Instant::now();
        for _ in 0..calls {
            call();
        }
        start.elapsed()
    })
}

impl Case {
    /// A call made from the calls of each side.
    pub fn new<F: FnMut() + 'static>(call: impl Fn(Calls) -> F) -> Case {
        Case([LIBRARY, PLAIN, SSE2].map(|calls| timed(call(calls))))
    }
}

/// The times of a case: nanoseconds a call in the shortest round.
#[derive(Clone, Copy)]
pub struct Times {
    pub library: f64,
    pub plain: f64,
    pub sse2: f64,
}

/// A side with the number of calls that fills a round, and the shortest round so far.
struct Track {
    side: Side,
    calls: u32,
    shortest: Duration,
}

impl Track {
    fn new(mut side: Side) -> Track {
        let mut calls = 1;
        while side(calls) < ROUND / 2 && calls < 1 << 20 {
            calls *= 2;
        }
        Track {
            side,
            calls,
            shortest: Duration::MAX,
        }
    }

    fn round(&mut self) {
        self.shortest = self.shortest.min((self.side)(self.calls));
    }

    /// Nanoseconds of one part in the shortest round, where each call does so many.
    fn time(&self, parts: usize) -> f64 {
        self.shortest.as_nanos() as f64 / (f64::from(self.calls) * parts as f64)
    }
}

/// The times of one part of each case, where a call does so many. Every round goes through all cases, the library first.
pub fn in_turn(cases: Vec<Case>, parts: usize) -> Vec<Times> {
    let mut tracks: Vec<[Track; 3]> = cases
        .into_iter()
        .map(|Case(sides)| sides.map(Track::new))
        .collect();
    for _ in 0..ROUNDS {
        tracks.iter_mut().flatten().for_each(Track::round);
    }
    let times = |tracks: &[Track; 3]| {
        let [library, plain, sse2] = tracks.each_ref().map(|track| track.time(parts));
        Times {
            library,
            plain,
            sse2,
        }
    };
    tracks.iter().map(times).collect()
}
