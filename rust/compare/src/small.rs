//! All questions of small stations. The second implementation's own answer is compared with the search by the
//! definition, and the library's answer with both.

use std::collections::HashMap;

use reference::{Name, Right, State, Station, buffer_minimum, leaks_by_definition, projected};

use crate::check::{self, Difference, hex};
use crate::count::Counts;
use crate::generate::valid_record;
use crate::matrix::rights;
use crate::random::Random;

/// The search goes through subject names below this number: those of the record, and beyond it one or two.
const SUBJECTS_SEARCHED: u64 = 3;

/// Answers that are kept before they are forgotten, so that a long run takes no more room than a short one.
const KEPT: usize = 200_000;

/// The answers of searches by what they depend on: the projected state, the trust mask, s, o and the right.
#[derive(Default)]
pub struct Searches {
    known: HashMap<(State, u64, u64, Name, Right), bool>,
}

impl Searches {
    /// Whether the question leaks by the definition.
    fn leaks(&mut self, station: &Station, [trust, s, o, right]: [u64; 4]) -> bool {
        let q = reference::question(station, trust, s, o, right)
            .expect("a question of a small station is within its bounds");
        let (state, names) = projected(&station.state, &q, SUBJECTS_SEARCHED);
        if self.known.len() >= KEPT {
            self.known.clear();
        }
        let key = (state, q.trust, q.s, q.o, q.right);
        match self.known.get(&key) {
            Some(answer) => *answer,
            None => {
                let answer = leaks_by_definition(&key.0, &q, &names);
                self.known.insert(key, answer);
                answer
            }
        }
    }
}

/// All questions of one small station of a version: every trust mask, s, o and right.
pub fn all_questions(
    version: u8,
    random: &mut Random,
    searches: &mut Searches,
    counts: &mut Counts,
) -> Result<(), Difference> {
    let (n, p) = (1 + random.below(SUBJECTS_SEARCHED), random.below(3));
    let record = valid_record(version, n, p, random);
    let station = reference::read(&record).map_err(|refusal| not_valid(&record, refusal))?;
    for trust in 0..1 << n {
        for s in 0..n {
            for o in 0..n + p {
                for right in 0..rights(version) {
                    let question = [trust, s, o, right];
                    agree(&record, &station, question, searches)?;
                    check::safety(&record, question, buffer_minimum(n), false, counts)?;
                    counts.searched += 1;
                }
            }
        }
    }
    Ok(())
}

/// A record built to be valid that the second implementation turns down: a fault of one of the two.
pub fn not_valid(record: &[u8], refusal: u64) -> Difference {
    Difference {
        call: "a record built to be valid",
        inputs: format!("record {}", hex(record)),
        reference: format!("refusal {refusal}"),
        library: String::from("not asked"),
    }
}

/// Whether the characterisation and the search agree, both being of the second implementation.
fn agree(
    record: &[u8],
    station: &Station,
    question: [u64; 4],
    searches: &mut Searches,
) -> Result<(), Difference> {
    let [trust, s, o, right] = question;
    let found = searches.leaks(station, question);
    let buffer = buffer_minimum(station.n);
    let said = reference::safety(record, trust, s, o, right, buffer) == reference::Safety::Leaks;
    if found == said {
        return Ok(());
    }
    Err(Difference {
        call: "the search by the definition",
        inputs: format!(
            "trust {trust:#x}, s {s}, o {o}, right {right}, record {}",
            hex(record)
        ),
        reference: format!("leaks by the characterisation: {said}, by the search: {found}"),
        library: String::from("not asked"),
    })
}
