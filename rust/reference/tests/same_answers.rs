//! A version 1 record and the version 2 record that it converts to: every call answers the same on both, for the
//! codes and k that both versions have, or that neither has.

use reference::{
    Answer, buffer_minimum, command, held, leaks_by, read, run, safety, to_version_2, valid,
    write_list,
};

#[path = "common/alone.rs"]
mod alone;
#[path = "common/filled.rs"]
mod filled;
#[path = "common/random.rs"]
mod random;
#[path = "common/widened.rs"]
mod widened;

use filled::filled;
use random::Random;
use widened::widened;

/// The basic rights that both versions have.
const KS: [u64; 7] = [0, 1, 2, 3, 4, 5, 6];

/// The record at version 2, by the call.
fn converted(record: &[u8]) -> Vec<u8> {
    let mut out = vec![0; 2 * record.len()];
    let Answer { refusal, value } = to_version_2(record, &mut out);
    assert_eq!(refusal, 0);
    out.truncate(value as usize);
    out
}

/// A record of version 1, its n and p, and the record at version 2.
struct Pair {
    n: u64,
    p: u64,
    narrow: Vec<u8>,
    wide: Vec<u8>,
}

impl Pair {
    fn of(narrow: Vec<u8>) -> Pair {
        let (n, p) = (narrow[5].into(), narrow[6].into());
        let wide = converted(&narrow);
        Pair { n, p, narrow, wide }
    }

    /// Asserts that a call which may change the record answers the same on both and leaves the same state in both.
    fn same(&self, call: impl Fn(&mut [u8]) -> Answer) -> Answer {
        let (mut narrow, mut wide) = (self.narrow.clone(), self.wide.clone());
        let answer = call(&mut narrow);
        assert_eq!(call(&mut wide), answer);
        assert_eq!(wide, converted(&narrow));
        answer
    }
}

/// Pairs of small sizes, with U alone and after random commands.
fn pairs() -> Vec<Pair> {
    let mut random = Random(1050);
    let mut all = Vec::new();
    for (n, p) in [(1, 0), (1, 1), (2, 0), (2, 1), (3, 1), (3, 2)] {
        for commands in [0, 10, 20, 40, 80, 160, 320, 640] {
            all.push(Pair::of(filled([1, n, p], &KS, commands, &mut random)));
        }
    }
    all
}

#[test]
fn of_validity_and_held() {
    for Pair { n, p, narrow, wide } in pairs() {
        assert!(valid(&narrow) && valid(&wide));
        for s in 0..=n {
            for o in 0..=n + p {
                for right in (0..16).chain([32, u64::MAX]) {
                    let answer = held(&narrow, s, o, right);
                    assert_eq!(held(&wide, s, o, right), answer);
                }
            }
        }
    }
}

/// All commands, with unknown codes and with each field up to one beyond its bound.
#[test]
fn of_commands() {
    let mut answers = [0; 20];
    for pair in pairs() {
        for code in 0..=14 {
            for i in 0..=pair.n {
                for s in 0..=pair.n {
                    for o in 0..=pair.n + pair.p {
                        for k in [0, 1, 3, 6, 15] {
                            let fields = [code, i, s, o, k];
                            let answer = pair.same(|record| command(record, fields));
                            answers[answer.refusal as usize] += 1;
                        }
                    }
                }
            }
        }
    }
    for refusal in [0, 6, 7, 8, 9, 10, 11, 12, 13, 14, 19] {
        assert!(answers[refusal] > 0, "{refusal} occurs");
    }
}

#[test]
fn of_runs() {
    let mut random = Random(1051);
    let mut longest = 0;
    for pair in pairs() {
        for commands in 0..60 {
            let fields: Vec<_> = (0..commands % 12)
                .map(|_| random.command(pair.n, pair.p, &KS).map(|field| field as u8))
                .collect();
            let mut list = write_list(&fields);
            longest = longest.max(pair.same(|record| run(record, &list)).value);
            list[0] = 2;
            let answer = pair.same(|record| run(record, &list));
            assert_eq!(answer.refusal, 16);
        }
    }
    assert!(longest > 2, "several commands are accepted");
}

/// All safety questions, and whether a random list is a leak of the right asked.
#[test]
fn of_safety_questions() {
    let mut random = Random(1052);
    let mut leaking_lists = 0;
    for Pair { n, p, narrow, wide } in pairs() {
        for trust in 0..=1 << n {
            for s in 0..=n {
                for o in 0..=n + p {
                    for right in (0..16).chain([32]) {
                        for buffer in [0, buffer_minimum(n) - 1, buffer_minimum(n)] {
                            let answer = safety(&narrow, trust, s, o, right, buffer);
                            assert_eq!(safety(&wide, trust, s, o, right, buffer), answer);
                        }
                        let fields = random.command(n, p, &KS).map(|field| field as u8);
                        let list = write_list(&[fields]);
                        let found = leaks_by(&narrow, trust, s, o, right, &list);
                        assert_eq!(leaks_by(&wide, trust, s, o, right, &list), found);
                        leaking_lists += u64::from(found.is_ok());
                    }
                }
            }
        }
    }
    assert!(leaking_lists > 100, "some lists are leaks");
}

/// A byte changed in the version 1 record, and the version 2 record with the same cells, n and p: valid or not,
/// and by which number, is the same.
#[test]
fn of_records_that_may_be_turned_down() {
    let mut numbers = [0; 6];
    for pair in pairs() {
        for at in 5..pair.narrow.len() {
            for bit in 0..8 {
                let mut narrow = pair.narrow.clone();
                narrow[at] ^= 1 << bit;
                let wide = widened(&narrow);
                assert_eq!(valid(&wide), valid(&narrow));
                let state = |record: &[u8]| read(record).map(|station| station.state);
                assert_eq!(state(&wide), state(&narrow));
                numbers[state(&narrow).err().unwrap_or(0) as usize] += 1;
            }
        }
    }
    for number in [0, 3, 4, 5] {
        assert!(numbers[number] > 0, "{number} occurs");
    }
}
