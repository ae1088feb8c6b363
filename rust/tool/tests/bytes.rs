//! Runs the program on files: what `run` leaves, also in a window, what `convert` makes, and what `diff` tells are the library's bytes.

mod library {
    pub use bunvespo::{
        Basic, Command, Header, MOST_PLAIN, MOST_RECORD_BYTES, MOST_SUBJECTS, Refusal, Right,
        command, new_record, to_version_1, to_version_2,
    };
}
#[path = "../src/tests/random.rs"]
mod random;
#[path = "../src/version.rs"]
mod version;

use std::fs;
use std::path::{Path, PathBuf};
use std::process::{Command as Process, Output};

use bunvespo::{Command, WINDOW_ENTRIES, WINDOW_NUMBERS, Window, encode, run};
use random::{Numbers, any_command, station};
use version::Version;

/// A folder that goes with this value.
struct Folder(PathBuf);

impl Folder {
    fn new(name: &str) -> Folder {
        let folder = std::env::temp_dir().join(format!("{name}-{}", std::process::id()));
        fs::create_dir_all(&folder).unwrap();
        Folder(folder)
    }

    /// Writes a file, which has no history.
    fn file(&self, name: &str, bytes: &[u8]) -> PathBuf {
        let path = self.0.join(name);
        fs::write(&path, bytes).unwrap();
        let _ = fs::remove_file(self.0.join(format!("{name}.history")));
        path
    }
}

impl Drop for Folder {
    fn drop(&mut self) {
        let _ = fs::remove_dir_all(&self.0);
    }
}

fn bunvespo(command: &str, words: &[&Path]) -> Output {
    let mut process = Process::new(env!("CARGO_BIN_EXE_bunvespo"));
    process.arg(command).args(words).output().unwrap()
}

/// Commands over a record, some of which will be refused.
fn some_commands(numbers: &mut Numbers, record: &[u8]) -> Vec<Command> {
    let mut copy = record.to_vec();
    let mut commands = Vec::new();
    for _ in 0..numbers.below(40) {
        let c = any_command(numbers, &copy);
        if library::command(&mut copy, c).is_ok() || numbers.below(60) == 0 {
            commands.push(c);
        }
    }
    commands
}

/// The exit status that belongs to yes or no.
fn exits(output: &Output, yes: bool) {
    assert_eq!(output.status.code(), Some(i32::from(!yes)));
    assert!(output.stderr.is_empty());
}

/// Commands as text or as a list.
fn written(commands: &[Command], as_text: bool) -> Vec<u8> {
    let line = |c: &Command| format!("{} {} {} {} {}\n", c.code, c.i, c.s, c.o, c.k);
    if as_text {
        commands.iter().map(line).collect::<String>().into_bytes()
    } else {
        encode(commands).unwrap()
    }
}

/// Runs commands on a file, dry and then in earnest, and compares the file and the differences with the library's; whether it was refused.
fn run_and_compare(folder: &Folder, old: &[u8], commands: &[Command], as_text: bool) -> bool {
    let mut new = old.to_vec();
    let ran = run(&mut new, &encode(commands).unwrap());

    let before = folder.file("old", old);
    let file = folder.file("record", old);
    let commands = folder.file("commands", &written(commands, as_text));
    exits(
        &bunvespo("run", &[Path::new("--dry"), &file, &commands]),
        ran.is_ok(),
    );
    assert_eq!(fs::read(&file).unwrap(), old);
    exits(&bunvespo("run", &[&file, &commands]), ran.is_ok());
    assert_eq!(fs::read(&file).unwrap(), new);

    let printed = bunvespo("diff", &[Path::new("--json"), &before, &file]);
    exits(&printed, old == new);
    let told = String::from_utf8(printed.stdout).unwrap();
    let bits = old.iter().zip(&new).map(|(a, b)| (a ^ b).count_ones());
    assert_eq!(told.matches("\"held\":").count() as u32, bits.sum());
    ran.is_err()
}

#[test]
fn run_and_diff_have_the_bytes_of_the_library() {
    let folder = Folder::new("bunvespo-bytes");
    let mut numbers = Numbers::new(8);
    let mut refused = 0;
    for round in 0..300 {
        let old = station(&mut numbers);
        let commands = some_commands(&mut numbers, &old);
        refused += u64::from(run_and_compare(&folder, &old, &commands, round % 2 == 0));
    }
    assert!(refused > 20, "{refused}");
}

/// Puts the commands of a run into a window, one by one, up to the first that is refused; how many these are.
fn put(window: &mut Window, record: &[u8], commands: &[Command]) -> u64 {
    let mut copy = record.to_vec();
    for (tried, c) in (1..).zip(commands) {
        let answer = library::command(&mut copy, *c);
        let outcome = answer.map_or_else(|refused| refused.number(), |_| 0);
        window.put(c.i, outcome.into()).unwrap();
        if outcome != 0 {
            return tried;
        }
    }
    commands.len() as u64
}

#[test]
fn a_window_has_what_was_tried() {
    let folder = Folder::new("bunvespo-window");
    let file = folder.0.join("window");
    let mut numbers = Numbers::new(9);
    let (mut window, mut tried) = (Window::new(), 0);
    for round in 0..400 {
        let old = station(&mut numbers);
        let commands = some_commands(&mut numbers, &old);
        tried += put(&mut window, &old, &commands);
        let record = folder.file("record", &old);
        let commands = folder.file("commands", &written(&commands, round % 2 == 0));
        let ran = bunvespo("run", &[Path::new("--window"), &file, &record, &commands]);
        assert!(ran.stderr.is_empty() && matches!(ran.status.code(), Some(0 | 1)));
        assert_eq!(file.exists(), tried > 0);
        assert!(tried == 0 || fs::read(&file).unwrap() == window.as_bytes());
    }
    // So entries were pushed out, and the places written again.
    assert!(tried > 2 * WINDOW_ENTRIES as u64, "{tried}");
    let told = bunvespo("refused", &[Path::new("--json"), &file]);
    exits(&told, true);
    let counts = (0..WINDOW_NUMBERS).map(|s| window.count(s).unwrap());
    let counts: Vec<u64> = counts.collect();
    let wanted = format!("{{\"refused\":{counts:?}}}\n").replace(' ', "");
    assert_eq!(String::from_utf8(told.stdout).unwrap(), wanted);
    assert!(counts.iter().sum::<u64>() > 3, "{wanted}");
}

#[test]
fn convert_has_the_bytes_of_the_library() {
    let folder = Folder::new("bunvespo-convert");
    let mut numbers = Numbers::new(10);
    let mut refused = 0;
    for _ in 0..500 {
        let record = station(&mut numbers);
        let file = folder.file("record", &record);
        let out = folder.0.join("out");
        for word in ["1", "2"] {
            let version = Version::parse(word).unwrap();
            let told = bunvespo("convert", &[&file, Path::new(word), &out]);
            assert_eq!(fs::read(&file).unwrap(), record);
            let Ok(converted) = version.convert(&record) else {
                exits(&told, false);
                assert!(!out.exists());
                refused += 1;
                continue;
            };
            exits(&told, true);
            assert_eq!(converted[0], version.number());
            assert_eq!(fs::read(&out).unwrap(), converted);
            exits(&bunvespo("diff", &[&file, &out]), true);
            fs::remove_file(&out).unwrap();
        }
    }
    assert!(refused > 20, "{refused}");
}
