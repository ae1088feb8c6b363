//! The C header and this crate say the same: version, calls, refusals and their words, codes of commands and rights, limits.

use bunvespo::{
    MOST_PLAIN, MOST_RECORD_BYTES, MOST_SUBJECTS, Refusal, WINDOW_ENTRIES, WINDOW_NUMBERS,
    WINDOW_SIZE, buffer_size, code,
};

const HEADER: &str = include_str!("../../../include/bunvespo.h");

/// The declarations of the calls in this crate.
const RAW: &str = include_str!("../src/raw.rs");

/// The words of each refusal, one a line after its number, which the header's own test prints.
const WORDS: &str = include_str!("../../../tests/c_interface/refusal_words");

/// The rest of the header's line that begins with a text, up to a comma, a blank or the end.
fn after(start: &str) -> &'static str {
    let line = HEADER.lines().find_map(|l| l.trim().strip_prefix(start));
    let rest = line.unwrap_or_else(|| panic!("the header has no line that begins with {start}"));
    rest.split([',', ' ']).next().unwrap()
}

/// The number of an enumerator of the header.
fn enumerator(name: &str) -> u64 {
    after(&format!("BUNVESPO_{name} = ")).parse().unwrap()
}

/// A name of Rust as C writes it: RecordShort is RECORD_SHORT.
fn in_capitals(name: &str) -> String {
    let mut text = String::new();
    for letter in name.chars() {
        if letter.is_uppercase() && !text.is_empty() {
            text.push('_');
        }
        text.push(letter.to_ascii_uppercase());
    }
    text
}

#[test]
fn version() {
    let number = |part: &str| after(&format!("#define BUNVESPO_VERSION_{part} "));
    let numbers = [number("MAJOR"), number("MINOR"), number("PATCH")];
    assert_eq!(numbers.join("."), env!("CARGO_PKG_VERSION"));
}

/// The name and the number of parameters of each call that is declared after one of these texts at the start of a line.
fn declared<'a>(source: &'a str, starts: &[&str]) -> Vec<(&'a str, usize)> {
    let lines = source.match_indices('\n').map(|(at, _)| &source[at + 1..]);
    let declarations = lines.filter_map(|line| starts.iter().find_map(|s| line.strip_prefix(s)));
    let of_calls = declarations.filter(|declaration| declaration.starts_with("bunvespo_"));
    let parts = of_calls.map(|declaration| {
        let (name, rest) = declaration.split_once('(').unwrap();
        let parameters = rest.split_once(')').unwrap().0.split(',');
        (name, parameters.filter(|p| !p.trim().is_empty()).count())
    });
    parts.collect()
}

#[test]
fn calls() {
    let in_header = declared(HEADER, &["uint64_t ", "bunvespo_answer ", "void "]);
    assert_eq!(in_header, declared(RAW, &["    pub fn "]));
    assert_eq!(in_header.len(), 11);
}

#[test]
fn refusals() {
    for refusal in Refusal::ALL {
        let name = format!("REFUSED_{}", in_capitals(&format!("{refusal:?}")));
        assert_eq!(enumerator(&name), u64::from(refusal.number()));
    }
    assert_eq!(HEADER.matches("    BUNVESPO_REFUSED_").count(), 19);
}

#[test]
fn words_of_refusals() {
    let lines = Refusal::ALL.map(|r| format!("{} {}\n", r.number(), r.words()));
    assert_eq!(lines.concat(), WORDS);
}

#[test]
fn codes() {
    let codes = [
        ("TRANSFER", code::TRANSFER),
        ("TRANSFER_STARRED", code::TRANSFER_STARRED),
        ("TRANSFER_OWN", code::TRANSFER_OWN),
        ("GRANT", code::GRANT),
        ("GRANT_STARRED", code::GRANT_STARRED),
        ("GRANT_CONTROL", code::GRANT_CONTROL),
        ("GRANT_OWN", code::GRANT_OWN),
        ("DELETE", code::DELETE),
        ("DELETE_STARRED", code::DELETE_STARRED),
        ("CREATE_OBJECT", code::CREATE_OBJECT),
        ("DESTROY_OBJECT", code::DESTROY_OBJECT),
        ("CREATE_SUBJECT", code::CREATE_SUBJECT),
        ("DESTROY_SUBJECT", code::DESTROY_SUBJECT),
    ];
    for (place, (name, code)) in codes.into_iter().enumerate() {
        assert_eq!((enumerator(name), code), (code, place as u64 + 1));
    }
}

#[test]
fn limits() {
    let number = |name: &str| after(&format!("#define BUNVESPO_MOST_{name} "));
    assert_eq!(number("SUBJECTS"), MOST_SUBJECTS.to_string());
    assert_eq!(number("PLAIN"), MOST_PLAIN.to_string());
    assert_eq!(number("RECORD_BYTES"), MOST_RECORD_BYTES.to_string());
    assert_eq!(buffer_size(MOST_SUBJECTS), 257);
    assert_eq!(buffer_size(u8::MAX), 5 + 6 * 257);
}

#[test]
fn windows() {
    let number = |name: &str| after(&format!("#define BUNVESPO_WINDOW_{name} "));
    assert_eq!(number("NUMBERS"), WINDOW_NUMBERS.to_string());
    assert_eq!(number("ENTRIES"), WINDOW_ENTRIES.to_string());
    assert_eq!(number("SIZE"), WINDOW_SIZE.to_string());
}
