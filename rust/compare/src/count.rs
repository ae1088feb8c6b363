//! How often each answer and each refusal of each call on a record occurred, apart for records of each version.

use std::fmt;

use crate::convert::Conversions;
use crate::count_first::Firsts;
use crate::matrix::{FORMER_MOST_SUBJECTS, MOST_PLAIN, MOST_SUBJECTS, VERSIONS};

/// The calls on a record.
#[derive(Clone, Copy, Debug, PartialEq, Eq)]
pub enum Call {
    Valid,
    Held,
    Command,
    Run,
    Safety,
    FirstHeld,
    ToVersion1,
    ToVersion2,
}

const CALLS: [Call; 8] = [
    Call::Valid,
    Call::Held,
    Call::Command,
    Call::Run,
    Call::Safety,
    Call::FirstHeld,
    Call::ToVersion1,
    Call::ToVersion2,
];

impl Call {
    pub fn name(self) -> &'static str {
        match self {
            Call::Valid => "valid",
            Call::Held => "held",
            Call::Command => "command",
            Call::Run => "run",
            Call::Safety => "safety",
            Call::FirstHeld => "first_held",
            Call::ToVersion1 => "to_version_1",
            Call::ToVersion2 => "to_version_2",
        }
    }

    /// The refusals that Manual 7.3 gives to the call on records of a version, in the order of the tests. The validity call
    /// gives none, and says no where 1 to 5 would turn the record down; these are counted as its refusals.
    fn refusals(self, version: u8) -> Vec<u64> {
        let record = 1..=5;
        let of_command = [6, 7, 8, 9, 10, 11, 12, 19, 13, 14];
        match self {
            Call::Valid => record.collect(),
            Call::Held => record.chain([7]).collect(),
            Call::Command => record.chain(of_command).collect(),
            Call::Run => record.chain([16]).chain(of_command).collect(),
            Call::Safety => record.chain([7, 15]).collect(),
            Call::FirstHeld => record.chain([7, 15, 16]).collect(),
            Call::ToVersion1 if version == 2 => record.chain([18, 15]).collect(),
            Call::ToVersion1 | Call::ToVersion2 => record.chain([15]).collect(),
        }
    }
}

/// The most commands of a leak: two more than there are subject names, also in a record above the limits, which has none.
const MOST_OF_LEAK: usize = FORMER_MOST_SUBJECTS as usize + 2;

/// The counts of all inputs on records of one version, or on what a damage made of them. They take the same room however
/// long the run.
pub struct Counts {
    version: u8,
    /// By call and refusal; place 0 counts the inputs that were answered.
    by_refusal: [[u64; 20]; CALLS.len()],
    /// Held: no, yes.
    pub held: [u64; 2],
    /// Accepted commands by code, of the command call.
    pub accepted: [u64; 14],
    /// Those of code 3 over a log, and accepted ones in lists.
    pub handed_logs: u64,
    pub handed_in_lists: u64,
    /// Deletes refused by 19 of a right that s holds all the same, by own or by the star; and accepted deletes in lists.
    pub held_unset: u64,
    pub deleted_in_lists: u64,
    /// Lists of the run call by the number of commands accepted: 0, 1 to 9, 10 to 99, and so on.
    pub ran: [u64; 6],
    pub safe: u64,
    /// Leaks by the number of commands.
    pub leaks: [u64; MOST_OF_LEAK + 1],
    /// Safety questions that were also answered by the search.
    pub searched: u64,
    /// The sizes of the valid records met, by n - 1 and p.
    sizes: Vec<bool>,
    /// Whole records above the limits, each asked of every call on a record: of n, of p, and of both.
    above: [u64; 3],
    pub conversions: Conversions,
    pub firsts: Firsts,
}

impl Counts {
    fn new(version: u8) -> Counts {
        Counts {
            version,
            by_refusal: [[0; 20]; CALLS.len()],
            held: [0; 2],
            accepted: [0; 14],
            handed_logs: 0,
            handed_in_lists: 0,
            held_unset: 0,
            deleted_in_lists: 0,
            ran: [0; 6],
            safe: 0,
            leaks: [0; MOST_OF_LEAK + 1],
            searched: 0,
            sizes: vec![false; (MOST_SUBJECTS * (MOST_PLAIN + 1)) as usize],
            above: [0; 3],
            conversions: Conversions::default(),
            firsts: Firsts::default(),
        }
    }

    /// Counts one input of a call by its refusal, 0 where it was answered.
    pub fn add(&mut self, call: Call, refusal: u64) {
        self.by_refusal[call as usize][refusal as usize] += 1;
    }

    /// Notes that a valid record of this size was met.
    pub fn add_size(&mut self, n: u64, p: u64) {
        self.sizes[((n - 1) * (MOST_PLAIN + 1) + p) as usize] = true;
    }

    /// Counts a whole record of a size above the limits.
    pub fn add_above(&mut self, n: u64, p: u64) {
        let of = match (n > MOST_SUBJECTS, p > MOST_PLAIN) {
            (true, false) => 0,
            (false, true) => 1,
            (true, true) => 2,
            (false, false) => unreachable!("n or p is above its limit"),
        };
        self.above[of] += 1;
    }

    /// The number of inputs.
    pub fn inputs(&self) -> u64 {
        self.by_refusal.iter().flatten().sum()
    }

    /// The number of inputs that were answered, or refused by another number than this one.
    pub fn inputs_but(&self, refusal: u64) -> u64 {
        self.inputs() - CALLS.map(|call| self.of(call, refusal)).iter().sum::<u64>()
    }

    /// The refusals that a call never gave and should have, and an answer, in words.
    fn missing_of(&self, call: Call) -> Vec<String> {
        let refusals = call.refusals(self.version).into_iter();
        let never = refusals.filter(|number| self.of(call, *number) == 0);
        let mut missing: Vec<String> = never
            .map(|number| format!("{}: refusal {number}", call.name()))
            .collect();
        if self.of(call, 0) == 0 {
            missing.push(format!("{}: an answer", call.name()));
        }
        missing
    }

    /// What never occurred and should have, in words.
    fn missing(&self) -> Vec<String> {
        let of_calls = CALLS.into_iter().flat_map(|call| self.missing_of(call));
        let mut missing: Vec<String> = of_calls.collect();
        let codes = (1..=13).filter(|code| self.accepted[*code] == 0);
        missing.extend(codes.map(|code| format!("command: code {code} accepted")));
        let answers = [
            ("command: code 3 accepted over a log", self.handed_logs),
            (
                "command: code 3 accepted over a subject",
                self.accepted[3] - self.handed_logs,
            ),
            ("run: code 3 accepted over a log", self.handed_in_lists),
            ("command: 19 for a right that is held", self.held_unset),
            ("run: a delete accepted", self.deleted_in_lists),
            ("held: no", self.held[0]),
            ("held: yes", self.held[1]),
            ("safety: safe", self.safe),
            ("safety: leaks", self.leaks.iter().sum()),
            ("safety: a question answered by the search", self.searched),
            ("a whole record with n above its limit", self.above[0]),
            ("a whole record with p above its limit", self.above[1]),
            ("a whole record with both above", self.above[2]),
        ];
        let never = answers.iter().filter(|(_, count)| *count == 0);
        missing.extend(never.map(|(answer, _)| String::from(*answer)));
        missing.extend(self.conversions.missing(self.version));
        missing.extend(self.firsts.missing());
        let sizes = self.sizes.iter().filter(|met| !**met).count();
        if sizes > 0 {
            missing.push(format!("a valid record of {sizes} sizes"));
        }
        missing
    }

    /// The number of inputs of a call.
    fn inputs_of(&self, call: Call) -> u64 {
        self.by_refusal[call as usize].iter().sum()
    }

    fn of(&self, call: Call, refusal: u64) -> u64 {
        self.by_refusal[call as usize][refusal as usize]
    }

    fn answers(&self, call: Call) -> String {
        match call {
            Call::Valid => format!("yes {}", self.of(call, 0)),
            Call::Held => format!("yes {}, no {}", self.held[1], self.held[0]),
            Call::Command => format!(
                "accepted, by code:{}; of code 3 over a log: {}; refused by 19 where the right is held: {}",
                listed(&self.accepted, 1),
                self.handed_logs,
                self.held_unset
            ),
            Call::Run => format!(
                "no refusal {}; commands accepted, also before a refusal: none {}, 1 to 9 {}, 10 to 99 {}, \
                 100 to 999 {}, 1,000 to 9,999 {}, 10,000 {}; code 3 over a log {}, deletes {}",
                self.of(call, 0),
                self.ran[0],
                self.ran[1],
                self.ran[2],
                self.ran[3],
                self.ran[4],
                self.ran[5],
                self.handed_in_lists,
                self.deleted_in_lists
            ),
            Call::Safety => format!(
                "safe {}; leaks, by number of commands:{}",
                self.safe,
                listed(&self.leaks, 0)
            ),
            Call::FirstHeld => format!("answered {}", self.of(call, 0)),
            Call::ToVersion1 | Call::ToVersion2 => format!("new records {}", self.of(call, 0)),
        }
    }
}

/// The counts that are not 0, each with its number, from a number on.
fn listed(counts: &[u64], from: usize) -> String {
    let numbered = counts.iter().enumerate().skip(from);
    let occurred = numbered.filter(|(_, count)| **count > 0);
    occurred
        .map(|(n, count)| format!(" {n}: {count}"))
        .collect()
}

impl fmt::Display for Counts {
    fn fmt(&self, f: &mut fmt::Formatter<'_>) -> fmt::Result {
        writeln!(f, "records of version {}", self.version)?;
        for call in CALLS {
            let refusals = call.refusals(self.version);
            writeln!(f, "{}: {} inputs", call.name(), self.inputs_of(call))?;
            writeln!(f, "  {}", self.answers(call))?;
            let word = if call == Call::Valid {
                "no, by the refusal that others give"
            } else {
                "refused"
            };
            let by_number = refusals.iter();
            let text: String = by_number
                .map(|number| format!(" {number}: {}", self.of(call, *number)))
                .collect();
            writeln!(f, "  {word}:{text}")?;
        }
        write!(f, "{}{}", self.firsts, self.conversions)?;
        let sizes = self.sizes.iter().filter(|met| **met).count();
        writeln!(f, "sizes of valid records: {sizes} of {}", self.sizes.len())?;
        let [of_n, of_p, of_both] = self.above;
        writeln!(
            f,
            "whole records above the limit of n: {of_n}, of p: {of_p}, of both: {of_both}"
        )?;
        writeln!(
            f,
            "safety questions also answered by the search: {}",
            self.searched
        )
    }
}

/// The counts of both versions.
pub struct Versions([Counts; VERSIONS.len()]);

impl Versions {
    pub fn new() -> Versions {
        Versions(VERSIONS.map(Counts::new))
    }

    /// The counts of records of a version.
    pub fn of(&mut self, version: u8) -> &mut Counts {
        let found = self.0.iter_mut().find(|counts| counts.version == version);
        found.expect("the version is 1 or 2")
    }

    /// The number of inputs.
    pub fn inputs(&self) -> u64 {
        self.0.iter().map(Counts::inputs).sum()
    }

    /// The number of inputs of all calls but `first_held`.
    pub fn inputs_but_first_held(&self) -> u64 {
        let of_it: u64 = self.0.iter().map(|c| c.inputs_of(Call::FirstHeld)).sum();
        self.inputs() - of_it
    }

    /// How often a right was not held, and how often it was.
    pub fn held(&self) -> [u64; 2] {
        [0, 1].map(|answer| self.0.iter().map(|counts| counts.held[answer]).sum())
    }

    /// What never occurred and should have, in words.
    pub fn missing(&self) -> Vec<String> {
        let of_each = self.0.iter().flat_map(|counts| {
            let missing = counts.missing().into_iter();
            missing.map(|what| format!("version {}: {what}", counts.version))
        });
        of_each.collect()
    }
}

impl fmt::Display for Versions {
    fn fmt(&self, f: &mut fmt::Formatter<'_>) -> fmt::Result {
        self.0.iter().try_for_each(|counts| write!(f, "{counts}"))
    }
}
