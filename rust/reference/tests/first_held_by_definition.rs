//! After how many commands of a list a right is held for the first time, compared with the definition on random
//! lists.

use reference::{Answer, first_held, held, run, write_list};

#[path = "common/alone.rs"]
mod alone;
#[path = "common/filled.rs"]
mod filled;
#[path = "common/random.rs"]
mod random;

use filled::filled;
use random::Random;

/// The answer of a call that is not turned down.
fn answered(value: u64) -> Answer {
    Answer { refusal: 0, value }
}

/// The answer by its definition: each beginning of the list is run from the start, on a copy of its own.
fn by_definition(record: &[u8], commands: &[[u8; 5]], [s, o, right]: [u64; 3]) -> Answer {
    for m in 0..=commands.len() {
        let mut copy = record.to_vec();
        let ran = run(&mut copy, &write_list(&commands[..m]));
        let all_accepted = ran == answered(m as u64);
        if all_accepted && held(&copy, s, o, right) == answered(1) {
            return answered(m as u64 + 1);
        }
    }
    answered(0)
}

/// This many random commands. Few random commands are accepted, so most of those that are refused where they
/// stand are left out.
fn random_list(record: &[u8], count: u64, ks: &[u64], random: &mut Random) -> Vec<[u8; 5]> {
    let (n, p) = (record[5].into(), record[6].into());
    let mut standing = record.to_vec();
    let mut list = Vec::new();
    while (list.len() as u64) < count {
        let fields = random.command(n, p, ks).map(|field| field as u8);
        let ran = run(&mut standing, &write_list(&[fields]));
        if ran.refusal == 0 || random.below(100) == 0 {
            list.push(fields);
        }
    }
    list
}

#[test]
fn random_lists() {
    let mut random = Random(1070);
    // How often each value was answered, and how often the list had a refused command.
    let (mut values, mut stopped) = ([0; 14], 0);
    for round in 0..4000 {
        // The greatest k of the version, and one that both versions have.
        let (version, ks) = [(1, [0, 6]), (2, [0, 14])][round % 2];
        let (n, p) = [(2, 1), (2, 2), (3, 1), (3, 2)][round / 2 % 4];
        let gathered = random.below(20);
        let record = filled([version, n, p], &ks, gathered, &mut random);
        let count = random.below(13);
        let list = random_list(&record, count, &ks, &mut random);
        let ran = run(&mut record.clone(), &write_list(&list));
        stopped += u64::from(ran.refusal != 0);
        for _ in 0..8 {
            let basic = 2 + 2 * ks[random.below(2) as usize] + random.below(2);
            let right = [random.below(2), basic, basic, basic][random.below(4) as usize];
            let [s, o] = [n, n + p].map(|bound| random.below(bound.into()));
            let given = first_held(&record, &write_list(&list), s, o, right, record.len());
            let expected = by_definition(&record, &list, [s, o, right]);
            assert_eq!(given, expected, "{record:?} {list:?} {s} {o} {right}");
            values[given.value as usize] += 1;
        }
    }
    assert!(values.iter().all(|times| *times > 5), "{values:?}");
    assert!((500..3500).contains(&stopped), "{stopped} of 4000 lists");
}
