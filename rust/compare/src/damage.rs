//! Records that are wrong in some way. Not each damage makes a record invalid: the second implementation says which.

use crate::matrix::{
    CONTROL, FORMER_MOST_PLAIN, FORMER_MOST_SUBJECTS, MOST_PLAIN, MOST_SUBJECTS, OWN, VERSIONS,
    clear, existing_subjects, is_set, record_bytes, rights, set, sizes,
};
use crate::random::Random;

/// A damage that keeps the length.
type Damage = fn(&mut [u8], &mut Random);

/// A damage that changes the length.
type DamageOfLength = fn(&mut Vec<u8>, &mut Random);

/// Damages of the matrix, for a record with a good header and length.
const OF_MATRIX: [Damage; 13] = [
    own_universal_subject,
    control_universal_subject,
    remove_universal_subject,
    add_owner,
    move_owner,
    remove_owner,
    own_itself,
    add_controllers,
    remove_own_control,
    fill_absent_names,
    control_plain_object,
    flip_bit,
    set_last_cell,
];

/// Damages of the header, and of any byte, for a record of 7 bytes at least.
const OF_HEADER: [Damage; 6] = [
    change_version,
    leave_range,
    change_sizes,
    keep_cell_count,
    change_count,
    change_byte,
];

/// Damages of the length, for a record of 7 bytes at least.
const OF_LENGTH: [DamageOfLength; 5] = [
    cut_below_header,
    cut,
    extend,
    change_count_and_length,
    mix_versions,
];

/// Damages a valid record: mostly once, in the matrix or elsewhere, sometimes several times.
pub fn damage(record: &mut Vec<u8>, random: &mut Random) {
    let of_matrix = random.pick(&[1, 1, 1, 0, 2]);
    for _ in 0..of_matrix {
        random.pick(&OF_MATRIX)(record, random);
    }
    let elsewhere = if of_matrix == 0 {
        1 + random.below(3)
    } else {
        random.pick(&[0, 0, 0, 1])
    };
    for _ in 0..elsewhere {
        // A record that was cut below its header is left as it is.
        if record.len() < 7 {
            return;
        }
        if random.below(10) < 6 {
            random.pick(&OF_HEADER)(record, random);
        } else {
            random.pick(&OF_LENGTH)(record, random);
        }
    }
}

fn any_subject(record: &[u8], random: &mut Random) -> u64 {
    random.below(sizes(record).0)
}

fn any_column(record: &[u8], random: &mut Random) -> u64 {
    let (n, p) = sizes(record);
    random.below(n + p)
}

fn own_universal_subject(record: &mut [u8], random: &mut Random) {
    let owner = random.pick(&existing_or_zero(record));
    set(record, owner, 0, OWN);
}

fn control_universal_subject(record: &mut [u8], random: &mut Random) {
    let controller = random.pick(&existing_or_zero(record));
    set(record, controller, 0, CONTROL);
}

fn remove_universal_subject(record: &mut [u8], _: &mut Random) {
    clear(record, 0, 0, CONTROL);
}

/// The existing subjects; U stands in where an earlier damage left none.
fn existing_or_zero(record: &[u8]) -> Vec<u64> {
    let existing = existing_subjects(record);
    if existing.is_empty() {
        vec![0]
    } else {
        existing
    }
}

/// A second owner of an existing subject, or of U a first.
fn add_owner(record: &mut [u8], random: &mut Random) {
    let existing = existing_or_zero(record);
    let (owner, owned) = (random.pick(&existing), random.pick(&existing));
    set(record, owner, owned, OWN);
}

/// An existing subject gets another owner in place of its own, which makes a cycle where that one is below it.
fn move_owner(record: &mut [u8], random: &mut Random) {
    let existing = existing_or_zero(record);
    let (owner, owned) = (random.pick(&existing), random.pick(&existing));
    if owned != 0 {
        remove_owners_of(record, owned);
        set(record, owner, owned, OWN);
    }
}

fn remove_owners_of(record: &mut [u8], owned: u64) {
    for row in 0..sizes(record).0 {
        clear(record, row, owned, OWN);
    }
}

fn remove_owner(record: &mut [u8], random: &mut Random) {
    let column = any_column(record, random);
    remove_owners_of(record, column);
}

fn own_itself(record: &mut [u8], random: &mut Random) {
    let s = random.pick(&existing_or_zero(record));
    remove_owners_of(record, s);
    set(record, s, s, OWN);
}

/// Two controllers of a subject, which are too many unless one is the subject itself.
fn add_controllers(record: &mut [u8], random: &mut Random) {
    let existing = existing_or_zero(record);
    let s = random.pick(&existing);
    for _ in 0..2 {
        set(record, random.pick(&existing), s, CONTROL);
    }
}

/// A subject becomes absent while its owner still owns it.
fn remove_own_control(record: &mut [u8], random: &mut Random) {
    let s = random.pick(&existing_or_zero(record));
    clear(record, s, s, CONTROL);
}

/// A right in the row or the column of an absent subject, or in the column of an absent plain object.
fn fill_absent_names(record: &mut [u8], random: &mut Random) {
    let (s, column) = (any_subject(record, random), any_column(record, random));
    let code = random.below(rights(record[0]));
    match random.below(3) {
        0 if !is_set(record, s, s, CONTROL) => set(record, s, column, code),
        1 if !is_set(record, s, s, CONTROL) => {
            let row = random.pick(&existing_or_zero(record));
            set(record, row, s, code);
        }
        _ => {
            let row = random.pick(&existing_or_zero(record));
            set(record, row, column, code.max(2));
        }
    }
}

fn control_plain_object(record: &mut [u8], random: &mut Random) {
    let (n, p) = sizes(record);
    if p > 0 {
        let (row, plain) = (any_subject(record, random), n + random.below(p));
        set(record, row, plain, CONTROL);
    }
}

fn flip_bit(record: &mut [u8], random: &mut Random) {
    let byte = 7 + random.below(record.len() as u64 - 7) as usize;
    record[byte] ^= 1 << random.below(8);
}

fn set_last_cell(record: &mut [u8], random: &mut Random) {
    let last = record.len() - 1 - random.below(rights(record[0]) / 8) as usize;
    record[last] ^= 1 << random.below(8);
}

fn cut_below_header(record: &mut Vec<u8>, random: &mut Random) {
    record.truncate(random.below(8) as usize);
}

fn cut(record: &mut Vec<u8>, random: &mut Random) {
    let most = record.len() as u64;
    let any = 1 + random.below(most);
    let by = random.pick(&[1, 2, any, most - 7]);
    record.truncate(record.len() - (by as usize).min(record.len()));
}

fn extend(record: &mut Vec<u8>, random: &mut Random) {
    let some = 1 + random.below(40);
    let by = random.pick(&[1, 2, some, 256]);
    record.extend((0..by).map(|_| random.next() as u8));
}

/// An unknown version, or one that is known: the L and the length of the other one do not fit the record.
fn change_version(record: &mut [u8], random: &mut Random) {
    let known = random.pick(&VERSIONS);
    record[0] = random.pick(&[0, 3, 0x81, 0x82, 0xFF, known, known]);
}

/// n 0, or n or p over its limit.
fn leave_range(record: &mut [u8], random: &mut Random) {
    let n = over(MOST_SUBJECTS, FORMER_MOST_SUBJECTS, random);
    let p = over(MOST_PLAIN, FORMER_MOST_PLAIN, random);
    match random.below(2) {
        0 => record[5] = random.pick(&[0, 128, 129, 255, n, n]),
        _ => record[6] = random.pick(&[255, p, p]),
    }
}

/// A number just over a limit, or about the former one.
fn over(limit: u64, former: u64, random: &mut Random) -> u8 {
    let about_former = random.pick(&[former - 1, former, former + 1, former + 2]);
    random.pick(&[limit + 1, limit + 2, about_former, about_former]) as u8
}

/// Other sizes within their ranges, which the length does not fit.
fn change_sizes(record: &mut [u8], random: &mut Random) {
    match random.below(3) {
        0 => record[5] = 1 + random.below(MOST_SUBJECTS) as u8,
        1 => record[6] = random.below(MOST_PLAIN + 1) as u8,
        _ => record.swap(5, 6),
    }
}

/// One row of as many cells as there were, so that the length still fits, where a record may have such a row.
fn keep_cell_count(record: &mut [u8], _: &mut Random) {
    let (n, p) = sizes(record);
    let cells = n * (n + p);
    if (1..=1 + MOST_PLAIN).contains(&cells) {
        record[5] = 1;
        record[6] = (cells - 1) as u8;
    }
}

fn change_count(record: &mut [u8], random: &mut Random) {
    let count = u32::from_be_bytes([record[1], record[2], record[3], record[4]]);
    let bit = random.below(32);
    let changed = random.pick(&[
        count.wrapping_add(1),
        count.wrapping_sub(1),
        count.wrapping_add(5),
        count.swap_bytes(),
        count ^ 1 << bit,
        0,
        u32::MAX,
    ]);
    record[1..5].copy_from_slice(&changed.to_be_bytes());
}

/// L and the true length agree with each other and not with n and p.
fn change_count_and_length(record: &mut Vec<u8>, random: &mut Random) {
    let length = match random.below(2) {
        0 => record.len() + 1 + random.below(9) as usize,
        _ => 7 + random.below(record.len() as u64 - 6) as usize,
    };
    record.resize(length, 0);
    record[1..5].copy_from_slice(&((length - 5) as u32).to_be_bytes());
}

/// Of the version, L and the length each is that of version 1 or of version 2. Where all three are of the other version than
/// before, the old cells are read in a wrong width.
fn mix_versions(record: &mut Vec<u8>, random: &mut Random) {
    let (n, p) = sizes(record);
    let [version, of_count, of_length] = [(); 3].map(|()| random.pick(&VERSIONS));
    let count = record_bytes(of_count, n, p) as u32 - 5;
    record[0] = version;
    record[1..5].copy_from_slice(&count.to_be_bytes());
    record.resize(record_bytes(of_length, n, p), 0);
}

fn change_byte(record: &mut [u8], random: &mut Random) {
    let byte = random.below(record.len() as u64) as usize;
    record[byte] = random.next() as u8;
}
