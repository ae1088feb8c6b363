//! `check FILE`: whether a record is valid, and if not, why.

use crate::answer::{Answer, first_lines};
use crate::faults::{Fault, reasons};
use crate::input::{called, names_of, record_bytes};
use crate::json;
use crate::library::{self, Refusal};
use crate::names::Names;
use crate::no_answer::Answered;
use crate::record::{Record, sizes};
use crate::words::Given;

pub fn check(given: &Given) -> Answered<Answer> {
    let path = &given.words[0];
    let bytes = record_bytes(path)?;
    let refusal = library::check(&bytes).err();
    let record = Record::shaped(&bytes).ok();
    let record = record.filter(|_| matches!(refusal, None | Some(Refusal::NotValid)));
    let names = match &record {
        Some(record) => names_of(path, given.names.as_ref(), &[record])?,
        None => Names::default(),
    };
    let faults = reasons(&bytes, refusal, &names);
    let text = match (given.json, refusal, record) {
        (true, _, _) => in_json(&bytes, refusal, &faults, &names),
        (false, Some(refusal), _) => text(&called(path), refusal, &faults),
        (false, None, record) => {
            let sizes = record.map_or(String::new(), |record| sizes(&record));
            format!("{} is valid: {sizes}.\n", called(path))
        }
    };
    Ok(Answer::new(text, library::valid(&bytes)))
}

pub fn text(file: &str, refusal: Refusal, faults: &[Fault]) -> String {
    let reasons = faults.iter().map(|fault| fault.sentence.clone());
    format!(
        "{file} is not valid (refusal {}):\n{}",
        refusal.number(),
        first_lines(&reasons.collect::<Vec<String>>())
    )
}

/// The version is the first byte, whatever it is.
fn in_json(bytes: &[u8], refusal: Option<Refusal>, faults: &[Fault], names: &Names) -> String {
    let version = bytes.first().map_or(String::from("null"), u8::to_string);
    let reasons = faults.iter().map(|fault| {
        let at = fault.at.iter().map(|name| json::name(*name, names));
        json::object(&[
            ("at", json::array(at)),
            ("words", json::text(&fault.sentence)),
        ])
    });
    let answer = json::object(&[
        ("valid", refusal.is_none().to_string()),
        ("refusal", refusal.map_or(0, |r| r.number()).to_string()),
        ("version", version),
        ("reasons", json::array(reasons)),
    ]);
    format!("{answer}\n")
}
