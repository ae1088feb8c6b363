//! Runs the program beside a history that is cut at every byte, and one with every byte changed: the damage is told or, where a loss of power
//! may leave it, dropped by the next run; the record stays, what stands before the damage is read, and `adopt` brings it back to work.

use std::fs;
use std::path::PathBuf;
use std::process::{Command as Process, Output};

/// A folder with a record and its history, which goes with this value.
struct Ward {
    folder: PathBuf,
    record: Vec<u8>,
    history: Vec<u8>,
    /// The record before each change and after the last, and the byte at which each entry ends.
    past: Vec<Vec<u8>>,
    ends: Vec<usize>,
}

/// Two runs that change the record, one of which ends by a refusal, an adoption, a run by which nothing changes, and one that changes it again.
const RUNS: [&str; 5] = [
    "12 0 1 0 0\n10 1 0 2 0\n",
    "4 1 0 2 0\n13 1 0 0 0\n",
    "",
    "4 300 0 0 0\n",
    "4 1 0 2 1\n",
];

impl Ward {
    fn new(name: &str) -> Ward {
        let folder = std::env::temp_dir().join(format!("{name}-{}", std::process::id()));
        fs::create_dir_all(&folder).unwrap();
        let mut ward = Ward {
            folder,
            record: Vec::new(),
            history: Vec::new(),
            past: Vec::new(),
            ends: Vec::new(),
        };
        ward.exits(&["new", "ward", "2", "1"], 0);
        ward.note();
        for commands in RUNS {
            if commands.is_empty() {
                let mut record = ward.file("ward");
                // Login 0 gets r1* over log 2.
                record[12] |= 0x20;
                fs::write(ward.folder.join("ward"), record).unwrap();
                ward.exits(&["adopt", "ward"], 0);
            } else {
                fs::write(ward.folder.join("commands"), commands).unwrap();
                ward.call(&["run", "ward", "commands"]);
            }
            ward.note();
        }
        fs::write(ward.folder.join("commands"), "4 1 0 2 3\n").unwrap();
        (ward.record, ward.history) = (ward.file("ward"), ward.file("ward.history"));
        ward
    }

    fn note(&mut self) {
        let (record, history) = (self.file("ward"), self.file("ward.history"));
        self.past.push(record);
        self.ends.push(history.len());
    }

    fn file(&self, name: &str) -> Vec<u8> {
        fs::read(self.folder.join(name)).unwrap()
    }

    fn call(&self, words: &[&str]) -> Output {
        let mut process = Process::new(env!("CARGO_BIN_EXE_bunvespo"));
        process
            .current_dir(&self.folder)
            .args(words)
            .output()
            .unwrap()
    }

    /// Calls the program, which has to exit in this way; what it prints.
    fn exits(&self, words: &[&str], status: i32) -> String {
        let output = self.call(words);
        let err = String::from_utf8_lossy(&output.stderr).into_owned();
        let out = String::from_utf8_lossy(&output.stdout).into_owned();
        assert_eq!(output.status.code(), Some(status), "{words:?}: {out}{err}");
        assert_eq!(
            err.lines().count(),
            usize::from(status == 2),
            "{words:?}: {err}"
        );
        assert!(status < 2 || out.is_empty(), "{words:?}: {out}");
        out + &err
    }

    /// Puts a history beside the record, and tries all that reads or writes it. So many of its entries are whole, and the rest is what a loss of
    /// power may leave, or is not.
    fn try_history(&self, history: &[u8], whole: usize, may_be_cut_off: bool) {
        let place = |name: &str| self.folder.join(name);
        fs::write(place("ward"), &self.record).unwrap();
        fs::write(place("ward.history"), history).unwrap();
        let is_whole = whole == self.ends.len();
        let agrees =
            whole > 0 && self.past[whole - 1] == self.record && (is_whole || may_be_cut_off);
        let audited = self.exits(&["audit", "ward"], i32::from(!agrees));
        let ends_whole = self.ends.contains(&history.len());
        let told = audited.contains("damaged") || audited.contains("cut off");
        assert!(told || ends_whole, "{audited}");
        let damaged = !may_be_cut_off && !is_whole;
        let logged = self.exits(&["log", "ward"], i32::from(damaged));
        let lines = |number: usize| logged.contains(&format!("\n{number}. "));
        assert!((1..whole).all(lines) && !lines(whole.max(1)), "{logged}");
        for change in 1..=self.ends.len() {
            let there = change <= whole;
            let (change, status) = (change.to_string(), if there { 0 } else { 2 });
            let past = self.call(&["log", "ward", "--at", &change, "-"]);
            assert_eq!(past.status.code(), Some(status));
            assert!(!there || past.stdout == self.past[change.parse::<usize>().unwrap() - 1]);
        }
        self.call(&["why", "ward", "0", "2", "r0"]);
        assert!(self.file("ward") == self.record && self.file("ward.history") == history);
        let run = self.exits(&["run", "ward", "commands"], if agrees { 0 } else { 2 });
        if agrees {
            assert!(ends_whole || run.contains("is dropped from ward.history"));
        } else {
            assert!(self.file("ward") == self.record && self.file("ward.history") == history);
            self.adopt(history, whole);
        }
        self.exits(&["audit", "ward"], 0);
        let left: Vec<_> = fs::read_dir(&self.folder).unwrap().collect();
        assert_eq!(left.len(), 3, "{left:?}");
    }

    /// Adopts the record: what stood before the damage is still there, the record is the same, and the damaged history is kept whole.
    fn adopt(&self, history: &[u8], whole: usize) {
        self.exits(&["adopt", "ward"], 0);
        assert!(self.file("ward") == self.record);
        let kept = self.folder.join("ward.history.damaged");
        let new = self.file("ward.history");
        if whole > 0 {
            let end = self.ends[whole - 1];
            assert!(new[..end] == self.history[..end]);
            // What is as the adoption that now stands there begins, but for the time, is left by one that was cut off.
            let mut rest = history[end..].iter().zip(&new[end..]).enumerate();
            let begun = rest.all(|(at, (old, new))| old == new || (9..17).contains(&at));
            assert_eq!(kept.exists(), !begun);
        }
        if whole == 0 || kept.exists() {
            assert!(fs::read(&kept).unwrap() == history);
            fs::remove_file(&kept).unwrap();
        }
        self.exits(&["audit", "ward"], 0);
        self.exits(&["run", "ward", "commands"], 0);
    }
}

impl Drop for Ward {
    fn drop(&mut self) {
        let _ = fs::remove_dir_all(&self.folder);
    }
}

#[test]
fn cut_at_every_byte() {
    let ward = Ward::new("bunvespo-cut");
    for length in 0..=ward.history.len() {
        let whole = ward.ends.iter().filter(|end| **end <= length).count();
        ward.try_history(&ward.history[..length], whole, whole > 0);
    }
}

#[test]
fn changed_at_every_byte() {
    let ward = Ward::new("bunvespo-changed");
    for at in 0..ward.history.len() {
        let mut history = ward.history.clone();
        history[at] ^= 1 << (at % 8);
        let whole = ward.ends.iter().filter(|end| **end <= at).count();
        let last = whole + 1 == ward.ends.len();
        // In the last entry a wrong head is damage, and a wrong sum may be what a loss of power leaves.
        let in_head = at < ward.ends[whole.max(1) - 1] + 8;
        ward.try_history(&history, whole, last && !in_head);
    }
}
