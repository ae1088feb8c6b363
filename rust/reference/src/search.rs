//! The safety question by its definition: a search of all states that lists of commands by untrusted subjects
//! lead to.
//!
//! A refused command changes nothing and the next one follows, so only accepted commands need to be followed.
//! The states met are kept, and each is followed once. There are infinitely many names, so a search can only
//! try some. The caller says which; the following reasons say which ones can matter.
//!
//! * Another basic right than the one asked is never read by a rule about the right asked, own or control: the
//!   only commands that read a basic bit are the transfers 1 and 2, which read and set bits of their own k, and
//!   the deletes 8 and 9, which read the one bit that they clear; existence, owners and the walk are read from
//!   own and control. So commands with another k can be left out, however many the record's version has, and
//!   with own or control all commands 1, 2, 4, 5, 8, 9. The k asked is below the bound of the record's version,
//!   which is the bound in the lists too, so no command is tried that the definition refuses by 7. Own over o, by
//!   which the right asked is held as well, is never left out.
//! * A plain column other than o is never read by a rule about another column. So commands over other plain
//!   names, in the record or beyond it, can be left out.
//! * A basic bit of a column other than o is never read by a rule about another cell than its column's.
//! * Subject names beyond the record are tried one or two at a time. By the characterisation none is needed,
//!   which is what the search is there to test.
//!
//! `projected` leaves out what the first three reasons leave out; the tests also search without it.

use std::collections::{HashSet, VecDeque};

use crate::command::{Command, allowed, change, uses};
use crate::rights::{Cell, Right};
use crate::safety::Question;
use crate::state::{Name, State};

/// The names and basic rights that the searched commands use.
#[derive(Clone, Debug, PartialEq, Eq, Hash)]
pub struct Names {
    pub subjects: Vec<u64>,
    pub plains: Vec<u64>,
    /// The basic rights, each over one column, of commands 1, 2, 4, 5, 8 and 9. The record's version has them.
    pub basics: Vec<(Name, u64)>,
}

/// Whether some list of commands over these names, begun by untrusted subjects, leads to a state in which the
/// right asked is held. The empty list counts. A list ends as soon as the right is held, so for a basic right it
/// ends where s comes to own o.
pub fn leaks_by_definition(start: &State, q: &Question, names: &Names) -> bool {
    leaks_by_codes(start, q, names, 1..=13)
}

/// The same search with commands of some codes only, to see what these do and whether the others are needed.
pub fn leaks_by_codes(
    start: &State,
    q: &Question,
    names: &Names,
    codes: impl IntoIterator<Item = u64>,
) -> bool {
    let held = |state: &State| state.held(q.s, q.o, q.right);
    if held(start) {
        return true;
    }
    let commands: Vec<Command> = codes
        .into_iter()
        .flat_map(|code| commands_of(code, q, names))
        .collect();
    let mut met = HashSet::from([start.clone()]);
    let mut waiting = VecDeque::from([start.clone()]);
    while let Some(state) = waiting.pop_front() {
        for command in &commands {
            if allowed(&state, command).is_err() {
                continue;
            }
            let mut next = state.clone();
            change(&mut next, command);
            if held(&next) {
                return true;
            }
            if !met.contains(&next) {
                met.insert(next.clone());
                waiting.push_back(next);
            }
        }
    }
    false
}

/// All commands of one code over the names, begun by untrusted subjects; an unused field is 0. Where k is not
/// used, o goes through the names of both kinds, so that transfers of own are tried over plain names too.
fn commands_of(code: u64, q: &Question, names: &Names) -> Vec<Command> {
    let uses = uses(code).expect("the code is 1 to 13");
    let subjects = names.subjects.iter().map(|s| Name::Subject(*s));
    let plains = names.plains.iter().map(|c| Name::Plain(*c));
    let s_values = match uses.s {
        true => names.subjects.clone(),
        false => vec![0],
    };
    let o_k_values: Vec<(Name, u64)> = match (uses.o, uses.k) {
        (true, true) => names.basics.clone(),
        (true, false) => subjects.chain(plains).map(|o| (o, 0)).collect(),
        _ => vec![(Name::Subject(0), 0)],
    };
    let mut commands = Vec::new();
    for i in names.subjects.iter().filter(|i| !q.trusted(**i)) {
        for s in &s_values {
            commands.extend(o_k_values.iter().map(|(o, k)| Command {
                code,
                i: *i,
                s: *s,
                o: *o,
                k: *k,
            }));
        }
    }
    commands
}

/// The state and the names with what cannot matter to the question left out: other plain columns, other basic
/// rights, and basic rights over other columns. The subject names are those below `subjects`.
pub fn projected(state: &State, q: &Question, subjects: u64) -> (State, Names) {
    let basics: Vec<(Name, u64)> = match q.right {
        Right::Basic(k, _) => vec![(q.o, k)],
        _ => vec![],
    };
    let plains = match q.o {
        Name::Plain(c) => vec![c],
        Name::Subject(_) => vec![],
    };
    let own_and_control = Cell(0).with(Right::Own).with(Right::Control).0;
    // The two bits of basic right k stand at 2 + 2k and 3 + 2k.
    let asked: u32 = basics.iter().map(|(_, k)| 0b11 << (2 + 2 * k)).sum();
    let kept = state
        .cells()
        .filter_map(|(column, row, cell)| match column {
            _ if column == q.o => Some((column, row, Cell(cell.0 & (own_and_control | asked)))),
            Name::Subject(_) => Some((column, row, Cell(cell.0 & own_and_control))),
            Name::Plain(_) => None,
        });
    let names = Names {
        subjects: (0..subjects).collect(),
        plains,
        basics,
    };
    (State::from_cells(kept), names)
}
