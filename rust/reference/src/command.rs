//! The thirteen commands (Manual 5).

use crate::Refusal;
use crate::record::name_of_column;
use crate::rights::{Form, Right};
use crate::state::{Name, State};
use crate::version::Version;

/// A command with a code of 1 to 13; its o is a name of either kind. A field that it does not use is 0.
#[derive(Clone, Copy, Debug, PartialEq, Eq)]
pub struct Command {
    pub code: u64,
    pub i: u64,
    pub s: u64,
    pub o: Name,
    pub k: u64,
}

/// The fields that a code uses besides i, which all use.
#[derive(Clone, Copy, Debug, PartialEq, Eq)]
pub struct Uses {
    pub s: bool,
    pub o: bool,
    pub k: bool,
}

/// The fields that the table has for a code; none for a code that it has not.
pub fn uses(code: u64) -> Option<Uses> {
    let (s, o, k) = match code {
        1 | 2 => (true, true, true),
        3 => (true, true, false),
        4 | 5 => (true, true, true),
        6 => (true, true, false),
        7 => (true, true, false),
        8 | 9 => (true, true, true),
        10 => (false, true, false),
        11 => (false, true, false),
        12 => (true, false, false),
        13 => (true, false, false),
        _ => return None,
    };
    Some(Uses { s, o, k })
}

/// Reads the five fields code, i, s, o, k on a version 1 record of n subject names and p plain names.
pub fn decode(fields: [u64; 5], n: u64, p: u64) -> Result<Command, Refusal> {
    decode_in(Version::One, fields, n, p)
}

/// Reads the five fields code, i, s, o, k on a record of this version, of n subject names and p plain names,
/// with the tests 6 and 7 in their order.
pub fn decode_in(version: Version, fields: [u64; 5], n: u64, p: u64) -> Result<Command, Refusal> {
    let [code, i, s, o, k] = fields;
    // 6: a code that the table has not.
    let Some(uses) = uses(code) else {
        return Err(6);
    };
    // 7: the bounds of a command (Manual 7.2). That of k is the version's.
    let out_of_bounds = i >= n || s >= n || o >= n + p || k >= version.basic_rights();
    let unused_not_zero = (!uses.s && s != 0) || (!uses.o && o != 0) || (!uses.k && k != 0);
    if out_of_bounds || unused_not_zero {
        return Err(7);
    }
    let o = name_of_column(n, o);
    Ok(Command { code, i, s, o, k })
}

/// A command turned down: the refusal and the links that it reports, which are 0 for all but 13.
#[derive(Clone, Copy, Debug, PartialEq, Eq)]
pub struct Refused {
    pub refusal: Refusal,
    pub links: u64,
}

/// The tests 8 to 12, then 19, then 13 and 14. An allowed command gives the links that it reports: those of the
/// walk for code 3 over a subject, otherwise 0.
pub fn allowed(state: &State, c: &Command) -> Result<u64, Refused> {
    let refused = |refusal| Err(Refused { refusal, links: 0 });
    // 8: i exists.
    if !state.exists(Name::Subject(c.i)) {
        return refused(8);
    }
    // 9: the kind of o.
    if !right_kind(c) {
        return refused(9);
    }
    // 10: the names used that are not created exist.
    if !needed_names_exist(state, c) {
        return refused(10);
    }
    // 11: the name that is created does not.
    if name_to_create(c).is_some_and(|name| state.exists(name)) {
        return refused(11);
    }
    // 12: the right that i needs.
    if !has_right_needed(state, c) {
        return refused(12);
    }
    // 19: the bit that a delete would clear is set. The other form of the right does not help, nor does own.
    if matches!(c.code, 8 | 9) && !state.has(c.s, c.o, named_right(c)) {
        return refused(19);
    }
    // 13: the walk meets o. A plain object owns nothing and is above nobody, so for it there is no walk, and no
    // link to report.
    if c.code == 3 && matches!(c.o, Name::Subject(_)) {
        return walk_without_o(state, c);
    }
    // 14: nobody but o controls o.
    if c.code == 6 && controlled_by_another(state, c.o) {
        return refused(14);
    }
    Ok(0)
}

/// The test 13: the walk, which starts at s itself, must not meet o. Gives the links followed; the refusal
/// reports them too.
fn walk_without_o(state: &State, c: &Command) -> Result<u64, Refused> {
    let walk = state.walk(c.s, c.o);
    let links = walk.links;
    if walk.met {
        Err(Refused { refusal: 13, links })
    } else {
        Ok(links)
    }
}

/// The right that a transfer, a grant or a delete of a basic right names: k, in the form that its code has.
fn named_right(c: &Command) -> Right {
    let form = match c.code {
        1 | 4 | 8 => Form::Plain,
        2 | 5 | 9 => Form::Starred,
        _ => unreachable!("the other codes name no basic right"),
    };
    Right::Basic(c.k, form)
}

/// Whether o is of the kind that the command needs, if it needs one. Transfer of own, as the other codes that
/// are not listed, takes an o of either kind.
fn right_kind(c: &Command) -> bool {
    match c.code {
        6 => matches!(c.o, Name::Subject(_)),
        7 | 10 | 11 => matches!(c.o, Name::Plain(_)),
        _ => true,
    }
}

/// The name that codes 10 and 12 create.
fn name_to_create(c: &Command) -> Option<Name> {
    match c.code {
        10 => Some(c.o),
        12 => Some(Name::Subject(c.s)),
        _ => None,
    }
}

/// Whether the s and the o exist that the command uses and does not create (Manual 5.3).
fn needed_names_exist(state: &State, c: &Command) -> bool {
    let s = Name::Subject(c.s);
    match c.code {
        1..=9 => state.exists(s) && state.exists(c.o),
        11 => state.exists(c.o),
        13 => state.exists(s),
        _ => true,
    }
}

/// Whether i has the right that the table asks of it (Manual 5.2). Only the bit itself does here: who owns o, and
/// so holds every basic right over it, still has to have the star to transfer one.
fn has_right_needed(state: &State, c: &Command) -> bool {
    let s = Name::Subject(c.s);
    let owns_o = state.has(c.i, c.o, Right::Own);
    match c.code {
        // Transfer r, r*: i has r* over o.
        1 | 2 => state.has(c.i, c.o, Right::Basic(c.k, Form::Starred)),
        // Transfer own: i owns o, a subject or a plain object.
        3 => owns_o,
        // Grant r, r*: i owns o.
        4 | 5 => owns_o,
        // Grant control: i owns subject o.
        6 => owns_o,
        // Grant own: i owns plain o.
        7 => owns_o,
        // Delete r, r*: i owns o or controls s.
        8 | 9 => owns_o || state.has(c.i, s, Right::Control),
        // Destroy object: i owns plain o.
        11 => owns_o,
        // Destroy subject: i owns s.
        13 => state.has(c.i, s, Right::Own),
        // Create object, create subject: nothing.
        _ => true,
    }
}

/// Whether a subject other than o controls o.
fn controlled_by_another(state: &State, o: Name) -> bool {
    let mut controllers = state.rows_with(o, Right::Control);
    controllers.any(|row| Name::Subject(row) != o)
}

/// The change that the table has for an accepted command (Manual 5.2).
pub fn change(state: &mut State, c: &Command) {
    match c.code {
        // Transfer and grant of r or r*: s gets it, and keeps it where it has it already.
        1 | 2 | 4 | 5 => state.gain(c.s, c.o, named_right(c)),
        // Transfer own: from i to s; i loses it first, so that nothing changes where s = i. A plain object may
        // have more owners: the others keep it, and where s is one of them already, i alone loses it.
        3 => {
            state.lose(c.i, c.o, Right::Own);
            state.gain(c.s, c.o, Right::Own);
        }
        // Grant control: s gets it.
        6 => state.gain(c.s, c.o, Right::Control),
        // Grant own: s gets it, and i keeps its own.
        7 => state.gain(c.s, c.o, Right::Own),
        // Delete r or r*: s loses this bit, which it has, and no other.
        8 | 9 => state.lose(c.s, c.o, named_right(c)),
        // Create object: it is i's.
        10 => state.gain(c.i, c.o, Right::Own),
        // Destroy object: nobody has anything over it.
        11 => state.clear_column(c.o),
        // Create subject: it is i's, and controls itself.
        12 => {
            state.gain(c.i, Name::Subject(c.s), Right::Own);
            state.gain(c.s, Name::Subject(c.s), Right::Control);
        }
        13 => destroy_subject(state, c),
        _ => unreachable!("a command has a code of 1 to 13"),
    }
}

/// Destroy subject: what s owned is i's, and then s has no bit left, in its row or in its column.
fn destroy_subject(state: &mut State, c: &Command) {
    for name in state.owned_by(c.s) {
        state.gain(c.i, name, Right::Own);
    }
    state.clear_row(c.s);
    state.clear_column(Name::Subject(c.s));
}
