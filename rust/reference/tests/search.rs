//! The characterisation of the safety question against the search by its definition, on all questions of many
//! small stations, at both versions.

use std::collections::{BTreeMap, BTreeSet};

use reference::{
    Name, Names, Question, Right, State, Station, Version, allowed, change, decode_in, leaks,
    leaks_by_codes, leaks_by_definition, projected, question,
};

#[path = "common/random.rs"]
mod random;

use random::Random;

/// A version with the codes of the rights asked: own, control, and both forms of the first basic right and of
/// the last. At version 2 they are asked too of the first that version 1 has not, which no station here has set.
const RIGHTS: (Version, &[u64]) = (Version::One, &[0, 1, 2, 3, 14, 15]);
const RIGHTS_OF_2: (Version, &[u64]) = (Version::Two, &[0, 1, 2, 3, 16, 17, 30, 31]);

/// Own and control, for which the version does not matter: the search leaves out all basic rights.
const NO_BASIC: (Version, &[u64]) = (Version::One, &[0, 1]);

/// The first and the last basic right of a version. Stations have these alone.
fn ends(version: Version) -> [u64; 2] {
    match version {
        Version::One => [0, 6],
        Version::Two => [0, 14],
    }
}

/// The station with U alone, after some random commands; those that are not allowed are passed over. There are
/// many commands, so that most stations come to have more subjects than U, and plain objects.
fn station(version: Version, n: u64, p: u64, random: &mut Random) -> Station {
    let mut state = State::default();
    state.gain(0, Name::Subject(0), Right::Control);
    for _ in 0..random.below(300) {
        let fields = random.command(n, p, &ends(version));
        let command = decode_in(version, fields, n, p).expect("the fields are within their bounds");
        if allowed(&state, &command).is_ok() {
            change(&mut state, &command);
        }
    }
    Station {
        version,
        n,
        p,
        state,
    }
}

/// All questions of a station about these rights.
fn questions(station: &Station, rights: &[u64]) -> Vec<Question> {
    let mut all = Vec::new();
    for trust in 0..1 << station.n {
        for s in 0..station.n {
            for o in 0..station.n + station.p {
                let asked = rights.iter().map(|r| question(station, trust, s, o, *r));
                all.extend(asked.map(|q| q.expect("the question is within its bounds")));
            }
        }
    }
    all
}

/// Compares both ways on all questions of stations of n by p, with some subject names beyond the record.
fn agree([n, p, beyond]: [u64; 3], stations: u64, (version, rights): (Version, &[u64])) {
    let mut random = Random(n << 8 | p << 4 | beyond | 1 << 40);
    let mut known = BTreeMap::new();
    let (mut safe, mut leaking) = (0, 0);
    for _ in 0..stations {
        let station = station(version, n, p, &mut random);
        for q in questions(&station, rights) {
            let (state, names) = projected(&station.state, &q, n + beyond);
            let key = (state.clone(), q.trust, q.s, q.o, q.right);
            let found = *known
                .entry(key)
                .or_insert_with(|| leaks_by_definition(&state, &q, &names));
            assert_eq!(leaks(&station, &q), found, "{station:?} {q:?}");
            *(if found { &mut leaking } else { &mut safe }) += 1;
        }
    }
    assert!(safe > 0 && leaking > 0, "both answers occur");
}

/// The questions of a station about own over its plain names.
fn own_over_plain_names(station: &Station) -> Vec<Question> {
    let mut asked = questions(station, &[0]);
    asked.retain(|q| matches!(q.o, Name::Plain(_)));
    asked
}

#[test]
fn one_subject_with_two_beyond() {
    for asked in [RIGHTS, RIGHTS_OF_2] {
        agree([1, 0, 2], 50, asked);
        agree([1, 1, 2], 100, asked);
        agree([1, 2, 2], 50, asked);
    }
}

#[test]
fn two_subjects_with_one_beyond() {
    agree([2, 0, 1], 500, RIGHTS);
    agree([2, 1, 1], 1000, RIGHTS);
    agree([2, 0, 1], 100, RIGHTS_OF_2);
    agree([2, 1, 1], 100, RIGHTS_OF_2);
}

#[test]
fn two_subjects_with_two_beyond() {
    agree([2, 1, 2], 8, NO_BASIC);
}

#[test]
fn three_subjects() {
    agree([3, 1, 0], 500, RIGHTS);
    agree([3, 2, 0], 200, NO_BASIC);
    agree([3, 1, 0], 50, RIGHTS_OF_2);
}

#[test]
fn three_subjects_with_one_beyond() {
    agree([3, 1, 1], 3, NO_BASIC);
}

/// The search with every basic right of the version over o, none left out. Each of them is asked; own and
/// control are not, since where these are out of reach the search would go through all sets of basic rights.
#[test]
fn one_subject_with_all_basic_rights() {
    let mut random = Random(104);
    for (version, bits) in [(Version::One, 16), (Version::Two, 32)] {
        let rights: Vec<u64> = (2..bits).collect();
        for _ in 0..20 {
            let station = station(version, 1, 1, &mut random);
            for q in questions(&station, &rights) {
                let (_, mut names) = projected(&station.state, &q, 1);
                names.basics = (0..(bits - 2) / 2).map(|k| (q.o, k)).collect();
                let found = leaks_by_definition(&station.state, &q, &names);
                assert_eq!(leaks(&station, &q), found, "{station:?} {q:?}");
            }
        }
    }
}

/// The search with the right asked and both basic rights that the station has over o, whichever is asked.
#[test]
fn two_subjects_with_another_basic_right() {
    let mut random = Random(105);
    for (version, rights) in [RIGHTS, RIGHTS_OF_2] {
        for _ in 0..20 {
            let station = station(version, 2, 1, &mut random);
            for q in questions(&station, rights) {
                let (_, mut names) = projected(&station.state, &q, 2);
                let others = ends(version).map(|k| (q.o, k));
                names.basics.extend(others);
                let found = leaks_by_definition(&station.state, &q, &names);
                assert_eq!(leaks(&station, &q), found, "{station:?} {q:?}");
            }
        }
    }
}

/// The search that leaves out nothing but other basic rights, with a plain name beyond the record, whose number
/// is that of a subject: the two kinds are numbered apart.
#[test]
fn all_columns_with_a_plain_name_beyond() {
    let mut random = Random(7);
    let (subject, plain) = (Name::Subject, Name::Plain);
    let columns = [subject(0), subject(1), plain(2), plain(0)];
    let versions = [
        (Version::One, [0, 1, 2, 3], 60),
        (Version::Two, [0, 1, 30, 31], 15),
    ];
    let stations = versions
        .into_iter()
        .flat_map(|(version, rights, stations)| vec![(version, rights); stations]);
    for (version, rights) in stations {
        let station = station(version, 2, 1, &mut random);
        // A basic right over U, which nobody owns, is left out: with U untrusted the search would go through
        // all states.
        let asked = questions(&station, &rights);
        let over_u = |q: &Question| q.o == Name::Subject(0) && matches!(q.right, Right::Basic(..));
        for q in asked.into_iter().filter(|q| !over_u(q)) {
            let names = Names {
                subjects: vec![0, 1],
                plains: vec![2, 0],
                basics: match q.right {
                    Right::Basic(k, _) => columns.map(|column| (column, k)).to_vec(),
                    _ => vec![],
                },
            };
            let found = leaks_by_definition(&station.state, &q, &names);
            assert_eq!(leaks(&station, &q), found, "{station:?} {q:?}");
        }
    }
}

/// Without grants and transfers of basic rights, a basic right is come to by owning o, and in no other way: the
/// search finds it where it is held at the start or own over o leaks.
#[test]
fn basic_rights_by_own_alone() {
    let mut random = Random(106);
    let (mut safe, mut leaking) = (0, 0);
    for (version, rights) in [(Version::One, [2, 15]), (Version::Two, [3, 30])] {
        for _ in 0..60 {
            let station = station(version, 3, 1, &mut random);
            for q in questions(&station, &rights) {
                let (state, names) = projected(&station.state, &q, 3);
                let codes = [3, 6, 7, 8, 9, 10, 11, 12, 13];
                let found = leaks_by_codes(&state, &q, &names, codes);
                let at_start = state.held(q.s, q.o, q.right);
                let right = Right::Own;
                let owned = leaks(&station, &Question { right, ..q });
                assert_eq!(found, at_start || owned, "{station:?} {q:?}");
                leaking += u64::from(found && !at_start);
                safe += u64::from(!found);
            }
        }
    }
    assert!(safe > 0 && leaking > 0, "both answers occur");
}

/// Transfers of own alone take a plain object from an untrusted owner to every subject that exists, and to no
/// other.
#[test]
fn transfers_alone_over_plain_names() {
    let mut random = Random(101);
    let (mut safe, mut leaking) = (0, 0);
    for _ in 0..200 {
        let station = station(Version::One, 3, 2, &mut random);
        let state = &station.state;
        for q in own_over_plain_names(&station) {
            let (kept, names) = projected(state, &q, 3);
            let found = leaks_by_codes(&kept, &q, &names, [3]);
            let mut owners = state.rows_with(q.o, Right::Own);
            let from_untrusted = owners.any(|owner| !q.trusted(owner));
            let at_start = state.held(q.s, q.o, q.right);
            let moved = from_untrusted && state.exists(Name::Subject(q.s));
            assert_eq!(found, at_start || moved, "{station:?} {q:?}");
            leaking += u64::from(found && !at_start);
            safe += u64::from(!found);
        }
    }
    assert!(safe > 0 && leaking > 0, "both answers occur");
}

/// Without grants of own, transfers do in their place: the search comes to the same answers. Without both, it
/// misses leaks, so the transfers over plain names are among what it tries.
#[test]
fn transfers_in_place_of_grants() {
    let mut random = Random(102);
    let mut known = BTreeSet::new();
    let mut missed = 0;
    for _ in 0..100 {
        let station = station(Version::One, 3, 1, &mut random);
        for q in own_over_plain_names(&station) {
            let (state, names) = projected(&station.state, &q, 3);
            if !known.insert((state.clone(), q.trust, q.s)) {
                continue;
            }
            let by = |without: &[u64]| {
                let codes = (1..=13).filter(|code| !without.contains(code));
                leaks_by_codes(&state, &q, &names, codes)
            };
            assert_eq!(leaks(&station, &q), by(&[7]), "{station:?} {q:?}");
            assert_eq!(leaks(&station, &q), by(&[3]), "{station:?} {q:?}");
            missed += u64::from(leaks(&station, &q) && !by(&[3, 7]));
        }
    }
    assert!(missed > 0, "own comes to a trusted subject by 3 or 7 only");
}

/// With several plain names in the record and one beyond it, none of them left out: transfers of other plain
/// objects change no answer.
#[test]
fn transfers_among_several_plain_names() {
    let mut random = Random(103);
    for _ in 0..20 {
        let station = station(Version::One, 2, 2, &mut random);
        for q in questions(&station, &[0, 1]) {
            let names = Names {
                subjects: vec![0, 1],
                plains: vec![2, 3, 4],
                basics: vec![],
            };
            let found = leaks_by_definition(&station.state, &q, &names);
            assert_eq!(leaks(&station, &q), found, "{station:?} {q:?}");
        }
    }
}
