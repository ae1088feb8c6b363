//! One delete: which bit counts and is cleared, and which refusals come before 19.

use reference::held;

use crate::codes::{at_both_versions, delete, grant, k_of, with_bit};
use crate::stations::{A, B, answer};
use crate::tried::{leaves, refused};
use crate::{CONTROL, OWN, has_bit, other_form};

/// Station A, in which the owners of 1 and of 2, U and 1, control them too.
fn controlled() -> Vec<u8> {
    with_bit(&with_bit(&A, [0, 1], CONTROL), [1, 2], CONTROL)
}

/// Calls this with both stations at both versions, each i, s and o, and the code of each basic right, none of
/// which is set: where i is entitled to the delete, since it owns o or controls s, or else where it is not.
fn each_delete(entitled: bool, call: impl Fn(&[u8], [u8; 3], u64)) {
    let stations = [A.to_vec(), controlled()].map(|station| at_both_versions(&station));
    for (record, codes) in stations.iter().flatten() {
        for [i, s, o] in (0..36).map(|number| [number / 12, number / 4 % 3, number % 4]) {
            let may = has_bit(record, [i, o], OWN) || has_bit(record, [i, s], CONTROL);
            if may == entitled {
                (2..*codes).for_each(|code| call(record, [i, s, o], code));
            }
        }
    }
}

/// Station A with every basic right set in every cell, but for the one of this code in this cell.
fn all_bits_but(record: &[u8], cell: [u8; 2], code: u64) -> Vec<u8> {
    let codes = 16 * u64::from(record[0]);
    let mut full = record.to_vec();
    for place in (0..12).map(|number| [number / 4, number % 4]) {
        for bit in (2..codes).filter(|bit| place != cell || *bit != code) {
            full = with_bit(&full, place, bit);
        }
    }
    full
}

#[test]
fn a_bit_that_is_not_set_is_refused_by_19() {
    each_delete(true, |record, [i, s, o], code| {
        refused(record, delete(code, [i, s, o]), 19);
    });
}

/// The plain right is held by the star, but the star does not help to delete it, nor does it the other way round.
#[test]
fn the_other_form_does_not_help() {
    each_delete(true, |record, [i, s, o], code| {
        let other = with_bit(record, [s, o], other_form(code));
        refused(&other, delete(code, [i, s, o]), 19);
    });
}

#[test]
fn own_and_control_do_not_help() {
    // The cell has own, over a log or a subject; own and control; or control alone, over 1 or over U.
    for (station, [i, s, o], own, control) in [
        (A.to_vec(), [2, 2, 3], true, false),
        (A.to_vec(), [0, 0, 1], true, false),
        (A.to_vec(), [1, 1, 2], true, false),
        (controlled(), [0, 0, 1], true, true),
        (controlled(), [1, 1, 2], true, true),
        (A.to_vec(), [1, 1, 1], false, true),
        (A.to_vec(), [0, 1, 1], false, true),
        (A.to_vec(), [0, 0, 0], false, true),
    ] {
        for (record, codes) in at_both_versions(&station) {
            assert_eq!(has_bit(&record, [s, o], OWN), own);
            assert_eq!(has_bit(&record, [s, o], CONTROL), control);
            for code in 2..codes {
                // An owner holds the right, but there is no bit of it to clear.
                let is_held = held(&record, s.into(), o.into(), code);
                assert_eq!(is_held, answer(0, own.into()));
                refused(&record, delete(code, [i, s, o]), 19);
            }
        }
    }
}

#[test]
fn the_named_bit_is_cleared_and_no_other() {
    each_delete(true, |record, [i, s, o], code| {
        let delete = delete(code, [i, s, o]);
        leaves(&with_bit(record, [s, o], code), delete, record);
        let other = with_bit(record, [s, o], other_form(code));
        leaves(&with_bit(&other, [s, o], code), delete, &other);
    });
}

/// With all other basic rights set, in this cell and in every other one, still the named bit alone counts and is
/// cleared.
#[test]
fn no_other_bit_helps_or_is_cleared() {
    each_delete(true, |record, [i, s, o], code| {
        let delete = delete(code, [i, s, o]);
        let others = all_bits_but(record, [s, o], code);
        refused(&others, delete, 19);
        leaves(&with_bit(&others, [s, o], code), delete, &others);
    });
}

/// Whether the bit is set or not, 12 comes first.
#[test]
fn an_initiator_without_the_right_is_refused_by_12() {
    each_delete(false, |record, [i, s, o], code| {
        let delete = delete(code, [i, s, o]);
        refused(record, delete, 12);
        refused(&with_bit(record, [s, o], code), delete, 12);
    });
}

#[test]
fn bounds_and_absent_names_come_first() {
    // Station B has no subject 1 and no log 2; the other one has log 2, which U owns.
    let with_log = with_bit(&B, [0, 2], OWN);
    for (station, fields, refusal) in [
        (&B[..], [1, 0, 0], 8),
        (&B, [1, 1, 1], 8),
        (&B, [1, 1, 2], 8),
        (&B, [0, 0, 1], 10),
        (&B, [0, 0, 2], 10),
        (&B, [0, 1, 0], 10),
        (&with_log, [1, 0, 2], 8),
        (&with_log, [0, 1, 2], 10),
        (&with_log, [2, 0, 2], 7),
        (&with_log, [0, 2, 2], 7),
        (&with_log, [0, 0, 3], 7),
        (&with_log, [0, 0, 2], 19),
    ] {
        for (record, codes) in at_both_versions(station) {
            for code in 2..codes {
                refused(&record, delete(code, fields), refusal);
            }
            // The k of these codes is one beyond the version's last.
            for code in [codes, codes + 1] {
                refused(&record, delete(code, fields), 7);
            }
        }
    }
}

#[test]
fn setting_a_bit_that_is_set_is_accepted() {
    for (record, codes) in at_both_versions(&A) {
        for code in 2..codes {
            let set = with_bit(&record, [1, 3], code);
            leaves(&set, grant(code, [2, 1, 3]), &set);
            // A transfer, code 1 or 2, by subject 2, which has the star: that is the odd code.
            let set = with_bit(&set, [2, 3], code | 1);
            leaves(&set, [1 + code as u8 % 2, 2, 1, 3, k_of(code)], &set);
        }
        // Own, granted to an owner and transferred to oneself.
        leaves(&record, [7, 2, 2, 3, 0], &record);
        leaves(&record, [3, 2, 2, 3, 0], &record);
    }
}
