//! An owner holds every basic right in both forms, in each place that asks whether a right is held; what a command may do
//! depends on bits alone. Each case is tried at both versions, with every basic right that the version has.

use reference::{Cell, Right, Safety, command, held, leaks_by, run, safety, write_list};

#[path = "common/codes.rs"]
mod codes;
#[path = "common/stations.rs"]
mod stations;
#[path = "common/widened.rs"]
mod widened;

use codes::{at_both_versions, delete, grant, k_of, with_bit};
use stations::{A, A2, B, B2, answer, with};

/// Asserts that of the rights over o, s holds those for which this says yes, and no others.
fn holds(narrow: &[u8], s: u64, o: u64, yes: impl Fn(u64) -> bool) {
    for (record, codes) in at_both_versions(narrow) {
        for code in 0..codes {
            let expected = answer(0, yes(code).into());
            assert_eq!(held(&record, s, o, code), expected, "{s} {o} {code}");
        }
    }
}

/// Station A, but with both other subjects owned by U: subject 1 is not above log 3, which 2 owns.
fn side_by_side() -> Vec<u8> {
    with(&with(&A, 11, [0x00, 0x01]), 19, [0x00, 0x00])
}

/// Asserts that the question leaks by these commands and by no shorter beginning of them. A question is the
/// trust mask, s, o and the code.
fn leaks_once_held(record: &[u8], [trust, s, o, code]: [u64; 4], commands: &[[u8; 5]]) {
    assert_eq!(safety(record, trust, s, o, code, 35), Safety::Leaks);
    for count in 0..=commands.len() {
        let found = leaks_by(record, trust, s, o, code, &write_list(&commands[..count]));
        let expected = (count == commands.len()).then_some(count);
        assert_eq!(found.ok(), expected, "{trust} {s} {o} {code}");
    }
}

/// Asserts that the question is safe, and that the empty list is no leak.
fn is_safe(record: &[u8], [trust, s, o, code]: [u64; 4]) {
    let question = format!("{trust} {s} {o} {code}");
    let asked = safety(record, trust, s, o, code, 35);
    assert_eq!(asked, Safety::Safe, "{question}");
    let found = leaks_by(record, trust, s, o, code, &write_list(&[]));
    assert!(found.is_err(), "{question}");
}

#[test]
fn the_stations_are_tried_at_both_versions() {
    assert_eq!(at_both_versions(&A), [(A.to_vec(), 16), (A2.to_vec(), 32)]);
    assert_eq!(at_both_versions(&B), [(B.to_vec(), 16), (B2.to_vec(), 32)]);
}

#[test]
fn an_owner_holds_every_basic_right() {
    // Log 3 is owned by 2, and the subjects 1 and 2 by U and 1. Own does not count for control.
    for (s, o) in [(2, 3), (0, 1), (1, 2)] {
        holds(&A, s, o, |code| code != 1);
    }
    // Who is above o and does not own it holds nothing, nor does the one that is owned.
    for (s, o) in [(0, 3), (1, 3), (0, 2), (1, 0), (2, 1)] {
        holds(&A, s, o, |_| false);
    }
    // Several owners of a log hold them all.
    let shared = with(&A, 13, [0x00, 0x01]);
    for s in [0, 2] {
        holds(&shared, s, 3, |code| code != 1);
    }
    holds(&shared, 1, 3, |_| false);
}

#[test]
fn control_counts_for_nothing_else() {
    // Each subject controls itself.
    for s in 0..3 {
        holds(&A, s, s, |code| code == 1);
    }
    // U controls 2, which 1 owns.
    let controlled = with(&A, 11, [0x00, 0x02]);
    holds(&controlled, 0, 2, |code| code == 1);
    holds(&controlled, 1, 2, |code| code != 1);
    // With own and control all is held.
    holds(&with(&A, 19, [0x00, 0x03]), 1, 2, |_| true);
}

#[test]
fn absent_names_hold_nothing() {
    let absent_log = with(&A, 30, [0x00]);
    for s in 0..3 {
        holds(&absent_log, s, 3, |_| false);
        // Station B has the subjects 0 and 1, and log 2.
        holds(&B, 1, s, |_| false);
    }
}

/// Every cell of version 1 and every one of version 2 with up to three bits, against the bits that do for a code.
#[test]
fn a_cell_holds_by_these_bits_and_no_others() {
    let few = (0..32).flat_map(|a| (0..32).flat_map(move |b| (0..32).map(move |c| [a, b, c])));
    let wide = few.map(|bits| bits.iter().fold(0, |cell, bit| cell | 1_u32 << bit));
    for cell in (0..1 << 16).chain(wide) {
        for code in 0..32_u32 {
            let does = |bit: u32| match code {
                0 | 1 => bit == code,
                _ if code % 2 == 0 => [0, code, code + 1].contains(&bit),
                _ => [0, code].contains(&bit),
            };
            let expected = (0..32).any(|bit| cell >> bit & 1 == 1 && does(bit));
            let right = Right::from_code(code.into()).unwrap();
            assert_eq!(Cell(cell).held(right), expected, "{cell:X} {code}");
        }
    }
}

/// Over a log and over a subject, to others and to oneself. The plain bit does not do either, and the star does.
#[test]
fn an_owner_without_the_star_is_refused_a_transfer() {
    for (record, codes) in at_both_versions(&A) {
        for code in 2..codes {
            for [i, s, o] in [[2, 1, 3], [2, 2, 3], [0, 2, 1], [1, 0, 2]] {
                // Transfers of the plain right are code 1, and of the starred one code 2.
                let transfer = [1 + code as u8 % 2, i, s, o, k_of(code)];
                let mut after = record.clone();
                assert_eq!(command(&mut after, transfer.map(u64::from)), answer(12, 0));
                assert_eq!(after, record);
                for (granting, expected) in [(4, answer(12, 1)), (5, answer(0, 2))] {
                    let list = write_list(&[[granting, i, i, o, k_of(code)], transfer]);
                    assert_eq!(run(&mut record.clone(), &list), expected);
                }
            }
        }
    }
}

/// The bits of a right that is held by own are set and cleared as those of any other, and what is held by own
/// alone goes with it.
#[test]
fn grants_and_deletes_change_the_named_bit() {
    for (record, codes) in at_both_versions(&A) {
        for code in 2..codes {
            let after = |before: &[u8], fields: [u8; 5]| {
                let mut after = before.to_vec();
                assert_eq!(command(&mut after, fields.map(u64::from)), answer(0, 0));
                after
            };
            let is_held = |record: &[u8]| held(record, 2, 3, code) == answer(0, 1);
            let give_away = [3, 2, 1, 3, 0];
            let granted = with_bit(&record, [2, 3], code);
            assert_eq!(after(&record, grant(code, [2, 2, 3])), granted);
            assert!(is_held(&after(&granted, give_away)), "the bit stays");
            assert_eq!(after(&granted, delete(code, [2, 2, 3])), record);
            assert!(is_held(&record), "own still counts");
            assert!(!is_held(&after(&record, give_away)), "own is gone");
        }
    }
}

#[test]
fn an_owner_leaks_by_the_empty_list() {
    for (record, codes) in at_both_versions(&A) {
        for code in 2..codes {
            for trust in 0..8 {
                for (s, o) in [(2, 3), (0, 1), (1, 2)] {
                    leaks_once_held(&record, [trust, s, o, code], &[]);
                }
            }
        }
        // Own does not count for control, which is safe with all trusted.
        for (s, o) in [(2, 3), (0, 1), (1, 2)] {
            is_safe(&record, [7, s, o, 1]);
        }
    }
}

#[test]
fn a_trusted_owner_other_than_s_stays_safe() {
    // With all trusted, who does not own o holds nothing, also above it or with control over it.
    let controlled = with(&A, 11, [0x00, 0x02]);
    for (record, codes) in at_both_versions(&controlled) {
        for code in 2..codes {
            for (s, o) in [(0, 3), (1, 3), (0, 2), (2, 2), (1, 1), (1, 0), (2, 1)] {
                is_safe(&record, [7, s, o, code]);
            }
        }
    }
    // An untrusted subject that is not above the log has no way to it.
    for (record, codes) in at_both_versions(&side_by_side()) {
        for code in 2..codes {
            is_safe(&record, [5, 0, 3, code]);
            is_safe(&record, [5, 1, 3, code]);
            leaks_once_held(&record, [5, 2, 3, code], &[]);
        }
    }
}

#[test]
fn a_creator_that_is_s_holds_it_at_once() {
    for (record, codes) in at_both_versions(&B) {
        for code in 2..codes {
            leaks_once_held(&record, [0, 0, 2, code], &[[10, 0, 0, 2, 0]]);
            leaks_once_held(&record, [0, 0, 1, code], &[[12, 0, 1, 0, 0]]);
            // Another s is created first, and then creates the log itself or is granted the right.
            let [subject, log] = [[12, 0, 1, 0, 0], [10, 0, 0, 2, 0]];
            let by_itself = [subject, [10, 1, 0, 2, 0]];
            leaks_once_held(&record, [0, 1, 2, code], &by_itself);
            let granted = [log, subject, grant(code, [0, 1, 2])];
            leaks_once_held(&record, [0, 1, 2, code], &granted);
        }
        // Control has to be granted.
        let controlled = [[12, 0, 1, 0, 0], [6, 0, 0, 1, 0]];
        leaks_once_held(&record, [0, 0, 1, 1], &controlled);
    }
}

#[test]
fn an_s_above_o_holds_it_after_the_destroys() {
    let [one, two] = [[13, 0, 1, 0, 0], [13, 0, 2, 0, 0]];
    for (record, codes) in at_both_versions(&A) {
        for code in 2..codes {
            leaks_once_held(&record, [6, 0, 3, code], &[one, two]);
            leaks_once_held(&record, [6, 0, 2, code], &[one]);
            leaks_once_held(&record, [5, 1, 3, code], &[[13, 1, 2, 0, 0]]);
            // Another s gets a grant after them, and is created again first where it was destroyed.
            let granted = [[13, 1, 2, 0, 0], grant(code, [1, 0, 3])];
            leaks_once_held(&record, [5, 0, 3, code], &granted);
            let again = [one, two, [12, 0, 1, 0, 0], grant(code, [0, 1, 3])];
            leaks_once_held(&record, [6, 1, 3, code], &again);
        }
        // Control over 2 is another matter: it has to be granted by the new owner.
        let controlled = [one, [6, 0, 0, 2, 0]];
        leaks_once_held(&record, [6, 0, 2, 1], &controlled);
    }
}

/// Own that is granted or transferred to s ends a list as well.
#[test]
fn an_s_that_is_given_own_holds_it() {
    for (record, codes) in at_both_versions(&A) {
        for code in 2..codes {
            for giving in [3, 7] {
                leaks_once_held(&record, [3, 1, 3, code], &[[giving, 2, 1, 3, 0]]);
            }
            leaks_once_held(&record, [5, 0, 2, code], &[[3, 1, 0, 2, 0]]);
        }
    }
}
