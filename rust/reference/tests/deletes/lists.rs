//! Deletes in runs, in leak lists and in the lists of the safety definition.

use reference::{
    Command, Name, Right, Safety, State, allowed, leaks_by, read, run, safety, write_list,
};

use crate::codes::{at_both_versions, delete, grant, with_bit};
use crate::other_form;
use crate::stations::{A, answer};

/// Asserts that a run says 19 after this many accepted commands, and leaves this record.
fn stops(before: &[u8], commands: &[[u8; 5]], accepted: u64, after: &[u8]) {
    let mut record = before.to_vec();
    let given = run(&mut record, &write_list(commands));
    assert_eq!(given, answer(19, accepted), "{commands:?}");
    assert_eq!(record, after, "{commands:?}");
}

/// What was accepted before the refused delete stays, and what comes after it is not tried.
#[test]
fn a_run_stops_at_a_delete_refused_by_19() {
    for (record, codes) in at_both_versions(&A) {
        for code in 2..codes {
            let [this, other] = [code, other_form(code)].map(|code| grant(code, [2, 1, 3]));
            let delete = delete(code, [2, 1, 3]);
            let with_other = with_bit(&record, [1, 3], other_form(code));
            stops(&record, &[delete, this], 0, &record);
            stops(&record, &[other, delete, this], 1, &with_other);
            let commands = [this, other, delete, delete, this];
            stops(&record, &commands, 3, &with_other);
        }
    }
}

/// By the owner of the log and by the subject itself, in each order.
#[test]
fn a_second_delete_is_refused_by_19() {
    for (record, codes) in at_both_versions(&A) {
        for code in 2..codes {
            let granted = with_bit(&record, [1, 3], code);
            let [owner, itself] = [2, 1].map(|i| delete(code, [i, 1, 3]));
            for first in [owner, itself] {
                for second in [owner, itself] {
                    stops(&granted, &[first, second], 1, &record);
                }
            }
        }
    }
}

#[test]
fn a_name_that_is_created_again_has_no_bit_to_delete() {
    for (record, codes) in at_both_versions(&A) {
        for code in 2..codes {
            let [granted, deleted] = [grant(code, [2, 1, 3]), delete(code, [2, 1, 3])];
            let subject = [[13, 0, 1, 0, 0], [12, 0, 1, 0, 0]];
            let log = [[11, 2, 0, 3, 0], [10, 2, 0, 3, 0]];
            for [destroy, create] in [subject, log] {
                let mut after = record.clone();
                let before_delete = write_list(&[destroy, create]);
                assert_eq!(run(&mut after, &before_delete), answer(0, 2));
                let commands = [granted, destroy, create, deleted];
                stops(&record, &commands, 3, &after);
            }
        }
    }
}

/// Only subject 1 is untrusted. It destroys 2, which owns the log, and so owns it itself and grants U the right.
#[test]
fn a_leak_list_has_no_delete_refused_by_19() {
    for (record, codes) in at_both_versions(&A) {
        for code in 2..codes {
            let destroy = [13, 1, 2, 0, 0];
            let [this, other] = [code, other_form(code)].map(|code| grant(code, [1, 0, 3]));
            let [no_this, no_other] = [code, other_form(code)].map(|code| delete(code, [1, 0, 3]));
            let by = |commands: &[[u8; 5]]| leaks_by(&record, 5, 0, 3, code, &write_list(commands));
            let refused = |at: u64| Err(format!("command {at} is refused by 19"));
            assert_eq!(safety(&record, 5, 0, 3, code, 35), Safety::Leaks);
            assert_eq!(by(&[destroy, this]), Ok(2));
            assert_eq!(by(&[destroy, other, no_other, this]), Ok(4));
            assert_eq!(by(&[delete(code, [1, 1, 3]), destroy, this]), refused(1));
            assert_eq!(by(&[destroy, no_this, this]), refused(2));
            assert_eq!(by(&[destroy, this, no_other]), refused(3));
            assert_eq!(by(&[destroy, this, no_this, no_this, this]), refused(4));
        }
    }
}

/// U's delete of the right of this code that subject 64 may have over o: the links reported where it is allowed,
/// and else the refusal with its links.
fn by_u(state: &State, o: Name, right: u64) -> Result<u64, (u64, u64)> {
    let [code, i, s, _, k] = delete(right, [0, 64, 0]).map(u64::from);
    let command = Command { code, i, s, o, k };
    allowed(state, &command).map_err(|refused| (refused.refusal, refused.links))
}

/// The search by the definition asks `allowed`, for names beyond the record too. There the two kinds are numbered
/// apart: a bit over the subject does not count for the plain name of the same number.
#[test]
fn names_beyond_the_record_follow_the_same_rule() {
    let (subject, plain) = (Name::Subject(65), Name::Plain(65));
    let mut state = read(&A).unwrap().state;
    for s in [64, 65] {
        state.gain(0, Name::Subject(s), Right::Own);
        state.gain(s, Name::Subject(s), Right::Control);
    }
    state.gain(0, plain, Right::Own);
    for code in 2..32 {
        for (set, other) in [(subject, plain), (plain, subject)] {
            let mut state = state.clone();
            state.gain(64, set, Right::from_code(code).unwrap());
            assert_eq!(by_u(&state, set, code), Ok(0));
            assert_eq!(by_u(&state, other, code), Err((19, 0)));
        }
    }
}
