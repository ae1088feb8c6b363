//! Whether a matrix is valid.

use std::collections::BTreeSet;

use crate::rights::Right;
use crate::state::{Name, State, U};

/// The five conditions (Manual 3.2), in their order.
pub fn matrix_valid(state: &State, n: u64) -> bool {
    let subjects: Vec<u64> = (0..n).filter(|s| state.exists(Name::Subject(*s))).collect();
    absent_names_are_zero(state, &subjects)
        && no_plain_column_has_control(state)
        && universal_subject_stands_alone(state)
        && others_have_one_owner_and_few_controllers(state, &subjects)
        && no_subject_is_met_again(state, &subjects)
}

/// 1: each cell that is not zero is of an existing row and an existing column.
fn absent_names_are_zero(state: &State, subjects: &[u64]) -> bool {
    let columns: BTreeSet<Name> = state.cells().map(|(column, _, _)| column).collect();
    columns.iter().all(|column| state.exists(*column))
        && state
            .cells()
            .all(|(_, row, _)| subjects.binary_search(&row).is_ok())
}

/// 2: nobody controls a plain object.
fn no_plain_column_has_control(state: &State) -> bool {
    let mut cells = state.cells();
    cells.all(|(column, _, cell)| matches!(column, Name::Subject(_)) || !cell.has(Right::Control))
}

/// The number of subjects other than s that control s.
fn other_controllers(state: &State, s: u64) -> usize {
    let controllers = state.rows_with(Name::Subject(s), Right::Control);
    controllers.filter(|row| *row != s).count()
}

/// 3: U exists, nobody owns it, and nobody but U controls it.
fn universal_subject_stands_alone(state: &State) -> bool {
    let u = Name::Subject(U);
    state.exists(u)
        && state.rows_with(u, Right::Own).count() == 0
        && other_controllers(state, U) == 0
}

/// 4: each existing subject but U has one owner, and at most one subject other than itself controls it.
fn others_have_one_owner_and_few_controllers(state: &State, subjects: &[u64]) -> bool {
    subjects.iter().filter(|s| **s != U).all(|s| {
        let owners = state.rows_with(Name::Subject(*s), Right::Own).count();
        owners == 1 && other_controllers(state, *s) <= 1
    })
}

/// 5: from owner to owner one comes to no subject twice. Asked once every subject but U has one owner, so that
/// following owners either ends at U or meets a subject again.
fn no_subject_is_met_again(state: &State, subjects: &[u64]) -> bool {
    let mut ends_at_u = BTreeSet::from([U]);
    for s in subjects {
        let mut followed = Vec::new();
        let mut at = *s;
        while !ends_at_u.contains(&at) {
            if followed.contains(&at) {
                return false;
            }
            followed.push(at);
            let Some(owner) = state.rows_with(Name::Subject(at), Right::Own).next() else {
                return false;
            };
            at = owner;
        }
        ends_at_u.extend(followed);
    }
    true
}
