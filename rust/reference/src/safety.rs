//! The safety question: its refusals, and its answer by the characterisation, for stations of any size.

use std::collections::BTreeSet;

use crate::Refusal;
use crate::record::Station;
use crate::rights::{Form, Right};
use crate::state::{Name, State, U};

/// A safety question: whether s can come to hold the right over o, if only untrusted subjects begin commands.
#[derive(Clone, Copy, Debug, PartialEq, Eq, Hash)]
pub struct Question {
    /// The trust mask: a bit for each subject, set for those that are trusted (Manual 8.1).
    pub trust: u64,
    pub s: u64,
    pub o: Name,
    pub right: Right,
}

impl Question {
    /// Names beyond the record are untrusted; the mask has no bit for names from 64 on.
    pub fn trusted(&self, subject: u64) -> bool {
        subject < 64 && self.trust >> subject & 1 == 1
    }
}

/// The test 7 of a safety question (Manual 7.2). The bound of the right's code is the version's.
pub fn question(
    station: &Station,
    trust: u64,
    s: u64,
    o: u64,
    right: u64,
) -> Result<Question, Refusal> {
    let trust_bit_beyond = (station.n..64).any(|bit| trust >> bit & 1 == 1);
    if s >= station.n || o >= station.n + station.p || trust_bit_beyond {
        return Err(7);
    }
    let right = station.version.right(right).ok_or(7u64)?;
    let o = station.name(o);
    Ok(Question { trust, s, o, right })
}

/// The test 15: the buffer has to have 5 + 6·(n + 2) bytes.
pub fn buffer_minimum(n: u64) -> usize {
    (5 + 6 * (n + 2)) as usize
}

/// Whether the question leaks: held at the start, or the right over o is possible for s, some untrusted
/// subject exists, and o is absent, or an untrusted subject is above o, or the right is basic and an untrusted
/// subject has it starred over o.
///
/// A basic right is held at the start by an s that owns o, too, trusted or not. That own counts so makes no
/// further question leak: where s comes to own o later, own over o leaks, so o is absent or an untrusted subject
/// is above it, and then the basic right leaks by a grant as well.
///
/// That own over a plain object can be transferred, as well as granted, makes no further question leak: the one
/// who begins it owns the object, and so is above it, and the object has an owner afterwards, so that it does
/// not become absent.
///
/// That a delete of a bit that is not set is refused, by 19, changes no answer: such a delete would leave the
/// state as it is, and after a refusal the next command follows, so the same states are come to.
///
/// The record's version bounds k, in the question as in the lists. The bound is not needed here: the k of the
/// question is below it, and the answer depends on no other k (`search` gives the reason).
pub fn leaks(station: &Station, q: &Question) -> bool {
    let state = &station.state;
    let untrusted: Vec<u64> = (0..station.n)
        .filter(|s| !q.trusted(*s) && state.exists(Name::Subject(*s)))
        .collect();
    let above = above(state, q.o);
    let reached = !state.exists(q.o)
        || untrusted.iter().any(|v| above.contains(v))
        || untrusted.iter().any(|v| has_star(state, *v, q));
    state.held(q.s, q.o, q.right) || (possible(q) && !untrusted.is_empty() && reached)
}

/// Whether the right over o is one that s can hold in some valid state. Nobody owns U or itself, and no plain
/// object is controlled; U has no controller but itself.
fn possible(q: &Question) -> bool {
    match (q.right, q.o) {
        (Right::Own, Name::Plain(_)) => true,
        (Right::Own, Name::Subject(o)) => o != U && o != q.s,
        (Right::Control, Name::Plain(_)) => false,
        (Right::Control, Name::Subject(o)) => o != U || q.s == U,
        (Right::Basic(..), _) => true,
    }
}

/// Whether the right is basic and v has its starred bit over o, with which v can transfer it. Own does not do
/// here, but an untrusted owner is above o.
fn has_star(state: &State, v: u64, q: &Question) -> bool {
    match q.right {
        Right::Basic(k, _) => state.has(v, q.o, Right::Basic(k, Form::Starred)),
        _ => false,
    }
}

/// The subjects above o (Manual 4.1): its owners, their owners, and on, U among them.
fn above(state: &State, o: Name) -> BTreeSet<u64> {
    let mut above = BTreeSet::new();
    let mut names = vec![o];
    while let Some(name) = names.pop() {
        for owner in state.rows_with(name, Right::Own) {
            if above.insert(owner) {
                names.push(Name::Subject(owner));
            }
        }
    }
    above
}
