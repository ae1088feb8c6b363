//! A history of 1,000,000 changes of one command each: `audit` and `why` answer within a second.

mod library {
    pub use bunvespo::{Command, Refusal};
}
mod history {
    pub(crate) use crate::sums;
}
// Histories are written here and not read, which takes a part of the layout.
#[allow(dead_code)]
#[path = "../src/history/layout.rs"]
mod layout;
#[path = "../src/history/sums.rs"]
mod sums;

use std::fs;
use std::process::Command as Process;
use std::time::{Duration, Instant};

use bunvespo::{Command, new_record, run};
use layout::{BEGINNING, Entry, RunBytes, What, first_sum, head, sum};

const CHANGES: usize = 1_000_000;

/// Adds an entry to the bytes of a history after one with this sum; its own sum.
fn push(history: &mut Vec<u8>, what: What, before: u64) -> u64 {
    let (place, body) = (history.len(), Entry { time: 0, what }.body());
    history.extend(head(body.len() as u32, place as u64));
    history.extend(body);
    let sum = sum(before, &history[place..]);
    history.extend(sum.to_be_bytes());
    sum
}

/// Commands of which all are accepted: grants and deletes of rights over a log, in turn, and a grant at the end.
fn command(number: usize) -> Command {
    let (login, basic) = (number as u64 / 2 % 19, number as u64 / 2 % 7);
    match number {
        0 => Command::create_object(0, 20),
        _ if number < 20 => Command::create_subject(0, number as u64),
        _ if number == CHANGES - 1 => Command::new(4, 0, 1, 20, 0),
        _ if number.is_multiple_of(2) => Command::new(4, 0, 1 + login, 20, basic),
        _ => Command::new(8, 0, 1 + login, 20, basic),
    }
}

#[test]
fn within_a_second() {
    let mut record = new_record(20, 60).unwrap();
    let mut history = BEGINNING.to_vec();
    let mut sum = push(&mut history, What::Start(&record), first_sum());
    let commands: Vec<Command> = (0..CHANGES).map(command).collect();
    for c in &commands {
        let bytes = RunBytes::new([*c].into_iter());
        sum = push(&mut history, What::Run(bytes.run(1, None)), sum);
    }
    for list in commands.chunks(bunvespo::MOST_COMMANDS) {
        run(&mut record, &bunvespo::encode(list).unwrap()).unwrap();
    }
    let folder = std::env::temp_dir().join(format!("bunvespo-million-{}", std::process::id()));
    fs::create_dir_all(&folder).unwrap();
    let file = folder.join("record");
    fs::write(&file, &record).unwrap();
    fs::write(folder.join("record.history"), &history).unwrap();
    for words in ["audit", "why 19 19 control", "why 1 20 r0"] {
        let mut words = words.split(' ');
        let mut process = Process::new(env!("CARGO_BIN_EXE_bunvespo"));
        process.arg(words.next().unwrap()).arg(&file).args(words);
        let begun = Instant::now();
        let answer = process.output().unwrap();
        let took = begun.elapsed();
        println!(
            "{process:?}: {took:?}: {}",
            String::from_utf8_lossy(&answer.stdout)
        );
        assert!(
            answer.stderr.is_empty() && took < Duration::from_secs(1),
            "{took:?}"
        );
    }
    fs::remove_dir_all(&folder).unwrap();
}
