//! Records of version 2 beside those of version 1: which bytes they have, and what the calls on them answer.

use std::array;

use reference::{
    Form, Right, Safety, Version, command, decode, decode_in, held, leaks_by, read, run, safety,
    valid, write, write_list,
};

#[path = "common/stations.rs"]
mod stations;
#[path = "common/tried.rs"]
mod tried;

use stations::{A, A2, B, B2, answer, with};
use tried::{leaves, refused};

#[test]
fn byte_0_is_the_version() {
    for (narrow, wide) in [(&A[..], &A2[..]), (&B, &B2)] {
        assert!(valid(narrow) && valid(wide));
        assert_eq!(read(narrow).unwrap().version, Version::One);
        assert_eq!(read(wide).unwrap().version, Version::Two);
    }
    // A version that is known, but whose L and length are not these.
    assert_eq!(read(&with(&A, 0, [0x02])), Err(4));
    assert_eq!(read(&with(&A2, 0, [0x01])), Err(4));
    for byte in (0..=0xFF).filter(|byte| ![1, 2].contains(byte)) {
        for record in [&A[..], &A2] {
            let unknown = with(record, 0, [byte]);
            assert_eq!(read(&unknown), Err(2), "byte {byte}");
            assert!(!valid(&unknown));
        }
    }
}

#[test]
fn l_and_the_length_are_those_of_the_version() {
    // 32 bytes are counted after byte 4 at version 2, and 1A at version 1.
    for (record, l) in [(&A[..], 0x32), (&A2, 0x1A), (&A2, 0x31), (&A2, 0x33)] {
        assert_eq!(read(&with(record, 4, [l])), Err(4));
    }
    // Another byte of L, and the true length: too long, too short, that of version 1.
    assert_eq!(read(&with(&A2, 2, [0x01])), Err(4));
    assert_eq!(read(&[&A2[..], &[0]].concat()), Err(4));
    for length in [54, 53, 51, 31, 7] {
        assert_eq!(read(&A2[..length]), Err(4), "{length} bytes");
    }
    assert_eq!(read(&A2[..6]), Err(1));
}

#[test]
fn both_versions_are_read_as_the_same_state() {
    for (narrow, wide) in [(&A[..], &A2[..]), (&B, &B2)] {
        let (from_narrow, from_wide) = (read(narrow).unwrap(), read(wide).unwrap());
        assert_eq!(from_narrow.state, from_wide.state);
        assert_eq!((from_narrow.n, from_narrow.p), (from_wide.n, from_wide.p));
        assert_eq!(write(&from_narrow), narrow);
        assert_eq!(write(&from_wide), wide);
    }
}

/// A version 1 record has no room for the bit, which is not cut off.
#[test]
#[should_panic(expected = "no room")]
fn a_high_bit_is_not_written_at_version_1() {
    let mut station = read(&A).unwrap();
    let right = Right::Basic(7, Form::Plain);
    station.state.gain(2, station.name(3), right);
    write(&station);
}

#[test]
fn a_code_is_the_number_of_the_bit() {
    // One bit in the cell of row 1 and log 3, which 2 owns; the codes that are then held.
    let cells: [([u8; 4], &[u64]); 9] = [
        ([0x00, 0x00, 0x00, 0x04], &[2]),
        ([0x00, 0x00, 0x00, 0x08], &[2, 3]),
        ([0x00, 0x00, 0x80, 0x00], &[14, 15]),
        ([0x00, 0x01, 0x00, 0x00], &[16]),
        ([0x00, 0x02, 0x00, 0x00], &[16, 17]),
        ([0x00, 0x80, 0x00, 0x00], &[22, 23]),
        ([0x01, 0x00, 0x00, 0x00], &[24]),
        ([0x40, 0x00, 0x00, 0x00], &[30]),
        ([0x80, 0x00, 0x00, 0x00], &[30, 31]),
    ];
    for (cell, codes) in cells {
        let record = with(&A2, 35, cell);
        assert_eq!(write(&read(&record).unwrap()), record);
        for code in 0..32 {
            let yes = codes.contains(&code);
            assert_eq!(held(&record, 1, 3, code), answer(0, yes.into()), "{code}");
            assert_eq!(held(&record, 0, 3, code), answer(0, 0), "{code}");
        }
    }
}

#[test]
fn codes_and_rights_are_one_to_one() {
    for code in 0..32 {
        let right = Right::from_code(code).unwrap();
        assert_eq!(right.code(), code);
        assert_eq!(Version::Two.right(code), Some(right));
        let narrow = (code < 16).then_some(right);
        assert_eq!(Version::One.right(code), narrow, "{code}");
    }
    assert_eq!(Right::from_code(16), Some(Right::Basic(7, Form::Plain)));
    assert_eq!(Right::from_code(31), Some(Right::Basic(14, Form::Starred)));
    for code in [32, 33, 1 << 32, 1 << 32 | 16, u64::MAX] {
        assert_eq!(Right::from_code(code), None);
        assert_eq!(Version::Two.right(code), None);
    }
}

#[test]
fn a_code_that_the_version_has_not_is_refused_by_7() {
    let not_at_2 = [32, 33, 64, 255, 1 << 32, 1 << 32 | 16, u64::MAX];
    let only_at_2: Vec<u64> = (16..32).collect();
    for (record, codes) in [(&A[..], &not_at_2[..]), (&A, &only_at_2), (&A2, &not_at_2)] {
        for code in codes {
            assert_eq!(held(record, 2, 3, *code), answer(7, 0), "{code}");
            for buffer in [0, 34, 35] {
                let asked = safety(record, 0, 2, 3, *code, buffer);
                assert_eq!(asked, Safety::Refused(7), "{code}");
            }
            assert!(leaks_by(record, 0, 2, 3, *code, &write_list(&[])).is_err());
        }
    }
    for code in only_at_2 {
        assert_eq!(held(&A2, 1, 3, code), answer(0, 0), "{code}");
        assert_eq!(safety(&A2, 0, 1, 3, code, 34), Safety::Refused(15));
        assert_eq!(safety(&A2, 0, 1, 3, code, 35), Safety::Leaks, "{code}");
        assert_eq!(safety(&A2, 7, 1, 3, code, 35), Safety::Safe, "{code}");
    }
    // The names' bounds are the same at both versions.
    for (s, o) in [(3, 3), (2, 4)] {
        assert_eq!(held(&A2, s, o, 31), answer(7, 0));
        assert_eq!(safety(&A2, 0, s, o, 31, 35), Safety::Refused(7));
    }
    assert_eq!(safety(&A2, 8, 2, 3, 31, 35), Safety::Refused(7));
}

#[test]
fn commands_set_and_clear_the_bit_of_their_k() {
    // Subject 2 owns log 3. The four bytes are the cell of row 1: those with r of k, and with r*.
    let cells = [
        (0, [0x00, 0x00, 0x00, 0x04], [0x00, 0x00, 0x00, 0x08]),
        (6, [0x00, 0x00, 0x40, 0x00], [0x00, 0x00, 0x80, 0x00]),
        (7, [0x00, 0x01, 0x00, 0x00], [0x00, 0x02, 0x00, 0x00]),
        (10, [0x00, 0x40, 0x00, 0x00], [0x00, 0x80, 0x00, 0x00]),
        (11, [0x01, 0x00, 0x00, 0x00], [0x02, 0x00, 0x00, 0x00]),
        (14, [0x40, 0x00, 0x00, 0x00], [0x80, 0x00, 0x00, 0x00]),
    ];
    for (k, plain, starred) in cells {
        let (r, star) = (with(&A2, 35, plain), with(&A2, 35, starred));
        let both: [u8; 4] = array::from_fn(|at| plain[at] | starred[at]);
        let both = with(&A2, 35, both);
        // Grants and deletes by the owner.
        leaves(&A2, [4, 2, 1, 3, k], &r);
        leaves(&A2, [5, 2, 1, 3, k], &star);
        leaves(&r, [8, 2, 1, 3, k], &A2);
        leaves(&star, [9, 2, 1, 3, k], &A2);
        // Only the named bit is cleared, and without it the other form does not do; row 1 controls itself and so
        // may delete its rights.
        leaves(&both, [8, 1, 1, 3, k], &star);
        leaves(&both, [9, 1, 1, 3, k], &r);
        refused(&star, [8, 1, 1, 3, k], 19);
        refused(&r, [9, 1, 1, 3, k], 19);
        // Transfers to row 0 need the star of this k.
        leaves(&star, [1, 1, 0, 3, k], &with(&star, 19, plain));
        leaves(&star, [2, 1, 0, 3, k], &with(&star, 19, starred));
        for code in [1, 2] {
            refused(&r, [code, 1, 0, 3, k], 12);
            refused(&star, [code, 1, 0, 3, if k == 0 { 14 } else { k - 1 }], 12);
        }
    }
}

/// Commands with this k on log 3, which their i owns. All of them are accepted if there is this k; a transfer
/// needs the star, which its i then has.
fn with_k(k: u8) -> Vec<u8> {
    write_list(&[
        [4, 2, 1, 3, k],
        [5, 2, 2, 3, k],
        [1, 2, 0, 3, k],
        [2, 2, 1, 3, k],
        [8, 2, 0, 3, k],
        [9, 2, 1, 3, k],
    ])
}

#[test]
fn each_version_has_its_k() {
    for k in 0..=255 {
        let narrow = if k <= 6 { answer(0, 6) } else { answer(7, 0) };
        let wide = if k <= 14 { answer(0, 6) } else { answer(7, 0) };
        assert_eq!(run(&mut A.to_vec(), &with_k(k)), narrow, "{k}");
        assert_eq!(run(&mut A2.to_vec(), &with_k(k)), wide, "{k}");
        let fields = [4, 2, 1, 3, u64::from(k)];
        assert_eq!(decode(fields, 3, 1).is_ok(), k <= 6);
        assert_eq!(decode_in(Version::One, fields, 3, 1).is_ok(), k <= 6);
        assert_eq!(decode_in(Version::Two, fields, 3, 1).is_ok(), k <= 14);
    }
}

#[test]
fn a_k_that_the_version_has_not_is_refused_by_7() {
    for code in [1, 2, 4, 5, 8, 9] {
        for k in [7, 8, 14, 15, 16, 255] {
            refused(&A, [code, 2, 2, 3, k], 7);
        }
        for k in [15, 16, 31, 255] {
            refused(&A2, [code, 2, 2, 3, k], 7);
        }
        for k in [15, 1 << 32, 1 << 32 | 7, 1 << 63, u64::MAX] {
            let mut record = A2;
            let fields = [u64::from(code), 2, 2, 3, k];
            assert_eq!(command(&mut record, fields), answer(7, 0), "{fields:?}");
            assert_eq!(record, A2);
        }
    }
    // A k that is not used is 0 at both versions, and an unknown code is seen first.
    for code in [3, 6, 7] {
        refused(&A2, [code, 1, 1, 2, 7], 7);
    }
    refused(&A2, [14, 0, 0, 0, 15], 6);
}

#[test]
fn a_run_keeps_the_version_and_what_it_does_not_touch() {
    // Row 0 has the rights of codes 31 and 16 over log 3. Subject 2 grants 1 k 14, and is destroyed by 1.
    let before = with(&A2, 19, [0x80, 0x01, 0x00, 0x00]);
    let list = write_list(&[[4, 2, 1, 3, 14], [13, 1, 2, 0, 0], [4, 1, 1, 3, 15]]);
    let after = [
        0x02, 0x00, 0x00, 0x00, 0x32, 0x03, 0x01, //
        0x00, 0x00, 0x00, 0x02, 0x00, 0x00, 0x00, 0x01, //
        0x00, 0x00, 0x00, 0x00, 0x80, 0x01, 0x00, 0x00, //
        0x00, 0x00, 0x00, 0x00, 0x00, 0x00, 0x00, 0x02, //
        0x00, 0x00, 0x00, 0x00, 0x40, 0x00, 0x00, 0x01, //
        0x00, 0x00, 0x00, 0x00, 0x00, 0x00, 0x00, 0x00, //
        0x00, 0x00, 0x00, 0x00, 0x00, 0x00, 0x00, 0x00,
    ];
    let mut record = before.clone();
    assert_eq!(run(&mut record, &list), answer(7, 2));
    assert_eq!(record, after);
    // A list has no version 2, whatever the record's version is.
    for mut record in [A.to_vec(), A2.to_vec()] {
        let mut list = write_list(&[[4, 2, 1, 3, 0]]);
        list[0] = 2;
        assert_eq!(run(&mut record, &list), answer(16, 0));
        list[0] = 1;
        assert_eq!(run(&mut record, &list), answer(0, 1));
    }
}

#[test]
fn high_bits_count_where_a_record_is_valid() {
    // U may hold any basic right over itself.
    assert!(valid(&with(&A2, 7, [0xFF, 0xFF, 0xFF, 0xFE])));
    assert!(valid(&with(&A2, 51, [0xFF, 0xFF, 0xFF, 0xFD])));
    for bit in 0..32_u32 {
        let cell = 1_u32 << bit;
        // Nobody owns log 2 of B, and subject 1 is absent: their cells are zero, except that owning log 2 is
        // how U makes it exist.
        assert_eq!(valid(&with(&B2, 15, cell.to_be_bytes())), bit == 0, "{bit}");
        for at in [11, 19, 27] {
            let record = with(&B2, at, cell.to_be_bytes());
            assert_eq!(read(&record), Err(5), "bit {bit} at {at}");
        }
        // In the own cell of a subject no basic right stands for control.
        let record = with(&A2, 47, cell.to_be_bytes());
        assert_eq!(valid(&record), bit == 1, "{bit}");
        // Nor does one for own over log 3, over which nobody has control.
        let record = with(&A2, 51, cell.to_be_bytes());
        assert_eq!(valid(&record), bit == 0, "{bit}");
    }
}

#[test]
fn the_papers_questions_at_version_2() {
    let asked =
        |record: &[u8], [trust, s, o, right]: [u64; 4]| safety(record, trust, s, o, right, 35);
    for code in 2..32 {
        let k = (code as u8 - 2) / 2;
        assert_eq!(asked(&A2, [7, 1, 3, code]), Safety::Safe);
        assert_eq!(asked(&A2, [5, 1, 3, code]), Safety::Leaks);
        // Grants of the plain right are code 4, and of the starred one code 5.
        let grant = 4 + code as u8 % 2;
        let list = write_list(&[[13, 1, 2, 0, 0], [grant, 1, 1, 3, k]]);
        assert_eq!(leaks_by(&A2, 5, 1, 3, code, &list), Ok(2));
        // For U, which does not come to own the log, another k does not do.
        for (granted, leaks) in [(k, true), ((k + 8) % 15, false)] {
            let list = write_list(&[[13, 1, 2, 0, 0], [grant, 1, 0, 3, granted]]);
            assert_eq!(leaks_by(&A2, 5, 0, 3, code, &list).is_ok(), leaks);
        }
        assert_eq!(asked(&B2, [1, 1, 2, code]), Safety::Safe);
        assert_eq!(asked(&B2, [0, 1, 2, code]), Safety::Leaks);
        let list = write_list(&[[10, 0, 0, 2, 0], [12, 0, 1, 0, 0], [5, 0, 1, 2, k]]);
        assert_eq!(leaks_by(&B2, 0, 1, 2, code, &list), Ok(3));
    }
    assert_eq!(asked(&A2, [1, 1, 1, 0]), Safety::Safe);
    assert_eq!(asked(&A2, [7, 2, 3, 0]), Safety::Leaks);
    assert_eq!(asked(&A2, [6, 0, 2, 0]), Safety::Leaks);
    assert_eq!(asked(&A2, [6, 2, 1, 0]), Safety::Leaks);
    // A list with a k that the record's version has not is no leak.
    let list = write_list(&[[4, 2, 1, 3, 0], [4, 2, 1, 3, 7]]);
    assert_eq!(leaks_by(&A2, 0, 1, 3, 2, &list), Ok(2));
    assert!(leaks_by(&A, 0, 1, 3, 2, &list).is_err());
}

#[test]
fn a_star_leaks_its_own_k_only() {
    // U owns log 3 and is trusted, as 1 is; 2 has one basic right over it, starred or plain.
    for code in 2..32_u64 {
        let owned = with(&A2, 19, [0x00, 0x00, 0x00, 0x01]);
        let record = with(&owned, 51, (1_u32 << code).to_be_bytes());
        let starred = code % 2 == 1;
        for asked in 2..32 {
            let same_k = asked / 2 == code / 2;
            let leaks = safety(&record, 3, 1, 3, asked, 35) == Safety::Leaks;
            assert_eq!(leaks, starred && same_k, "{code} {asked}");
            let at_start = safety(&record, 7, 2, 3, asked, 35) == Safety::Leaks;
            assert_eq!(
                at_start,
                asked == code || (starred && same_k),
                "{code} {asked}"
            );
        }
        let list = write_list(&[[2, 2, 1, 3, (code as u8 - 2) / 2]]);
        assert_eq!(leaks_by(&record, 3, 1, 3, code, &list).is_ok(), starred);
    }
}
