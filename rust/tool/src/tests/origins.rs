//! Where a right comes from, beside a search that runs one command at a time.

use crate::history::batch::Place;
use crate::history::origin::{Asked, Origin};
use crate::history::replay::replay;
use crate::library::{Command, Right, command, held, new_record};
use crate::record::{Record, column_of};
use crate::tests::histories::{History, Made, time_of};
use crate::tests::random::Numbers;

fn is_held(record: &[u8], asked: Asked) -> bool {
    let column = column_of(asked.over);
    let record = Record::open(record).expect("it is valid");
    let has_name = column < record.columns() && record.name(column) == asked.over;
    has_name && held(&record.bytes, asked.login, column, asked.right) == Ok(true)
}

/// The origins before each change and after the last, by `held` after each command.
fn slow(history: &History, asked: Asked) -> Vec<Option<Origin>> {
    let since = |since: Option<Origin>, record: &[u8], origin: Origin| match since {
        _ if !is_held(record, asked) => None,
        None => Some(origin),
        since => since,
    };
    let mut now = since(None, &history.records[0], history.start);
    let mut all = vec![now];
    for (at, made) in history.made.iter().enumerate() {
        let change = at as u64 + 1;
        let time = time_of(change);
        match made {
            Made::Adopted => {
                let origin = Origin::Adopted { change, time };
                now = since(now, &history.records[at + 1], origin);
            }
            Made::Run(commands) => {
                let mut record = history.records[at].clone();
                for (number, c) in (1..).zip(commands) {
                    command(&mut record, *c).expect("it was accepted");
                    let place = Place {
                        change,
                        time,
                        number,
                    };
                    now = since(now, &record, Origin::Command { place, command: *c });
                }
            }
        }
        all.push(now);
    }
    all
}

/// Compares the origin of a right in the first bytes of a history with the slow search; whether it has one.
fn compare(history: &History, length: usize, asked: Asked) -> bool {
    let open = || Ok(&history.bytes[..length]);
    let replay = replay(open, u64::MAX, Some(asked)).expect("bytes can be read");
    let replay = replay.expect("it has a start");
    let changes = replay.changes as usize;
    let slow = slow(history, asked);
    assert_eq!(replay.origins[0], slow[changes]);
    if replay.before.is_some() {
        assert_eq!(replay.origins[1], slow[changes - 1]);
    }
    replay.origins[0].is_some()
}

#[test]
fn as_by_one_command_at_a_time() {
    let mut numbers = Numbers::new(30);
    let (mut held, mut adopted) = (0, 0);
    for _ in 0..700 {
        let history = History::random(&mut numbers, 10);
        let last = Record::open(history.last()).expect("it is valid");
        adopted += history
            .made
            .iter()
            .filter(|made| matches!(made, Made::Adopted))
            .count();
        // Some histories end within an entry.
        let start = history.ends[0] as u64;
        let cut = numbers.below(history.bytes.len() as u64 - start + 1);
        let length = numbers.pick(&[history.bytes.len(), (start + cut) as usize]);
        for _ in 0..20 {
            let over = last.name(numbers.below(last.columns()));
            let asked = Asked {
                login: numbers.below(last.logins()),
                over,
                right: numbers.pick(last.rights()),
            };
            held += u64::from(compare(&history, length, asked));
        }
        for login in last.existing_logins().into_iter().take(4) {
            for name in last.existing().into_iter().take(8) {
                for right in [Right::Own, Right::Control] {
                    let asked = Asked {
                        login,
                        over: name,
                        right,
                    };
                    held += u64::from(compare(&history, length, asked));
                }
            }
        }
    }
    assert!(held > 3_000 && adopted > 200, "{held} {adopted}");
}

/// A right that is lost in each way in which it can be, and given again in the same change.
#[test]
fn lost_and_given_again() {
    let record = new_record(3, 2).expect("the sizes are in range");
    let grant = Command::new(4, 0, 1, 3, 0);
    let first = [
        Command::create_subject(0, 1),
        Command::create_object(0, 3),
        grant,
    ];
    let own = [
        Command::transfer_own(0, 1, 3),
        Command::transfer_own(1, 0, 3),
    ];
    let lost: [&[Command]; 5] = [
        &[Command::new(8, 0, 1, 3, 0)],
        &[Command::destroy_object(0, 3), Command::create_object(0, 3)],
        &[
            Command::destroy_subject(0, 1),
            Command::create_subject(0, 1),
        ],
        &own,
        &[Command::grant_control(0, 0, 1)],
    ];
    for lost in lost {
        let mut history = History::new(record.clone());
        history.run(&[&first, lost, &[grant]].concat());
        let all = history.made.iter().all(|made| match made {
            Made::Run(commands) => commands.len() == first.len() + lost.len() + 1,
            Made::Adopted => false,
        });
        assert!(all, "each command is accepted");
        let last = Record::open(history.last()).expect("it is valid");
        for login in 0..3 {
            for column in 0..last.columns() {
                for right in last.rights() {
                    let (over, right) = (last.name(column), *right);
                    compare(&history, history.bytes.len(), Asked { login, over, right });
                }
            }
        }
    }
}

/// A right that is given and taken again and again, in changes of many commands.
#[test]
fn given_and_taken_often() {
    let record = new_record(3, 2).expect("the sizes are in range");
    let grant = Command::new(4, 0, 1, 3, 0);
    let delete = Command::new(8, 0, 1, 3, 0);
    let mut numbers = Numbers::new(31);
    let mut history = History::new(record);
    history.run(&[Command::create_subject(0, 1), Command::create_object(0, 3)]);
    for _ in 0..40 {
        let mut commands = Vec::new();
        for _ in 0..numbers.below(700) {
            // Both are accepted in turn; a grant may be given twice, and the right is not always taken.
            commands.push(grant);
            commands.extend((0..numbers.below(3)).map(|_| Command::new(4, 0, 0, 3, 1)));
            if numbers.below(3) > 0 {
                commands.push(delete);
            }
        }
        commands.push(grant);
        history.run(&commands);
        history.run(&[delete]);
    }
    history.run(&[grant]);
    let last = Record::open(history.last()).expect("it is valid");
    for right in [Right::Plain(crate::library::Basic::R0), Right::Own] {
        for column in [1, 3] {
            let over = last.name(column);
            for length in [history.bytes.len(), history.ends[30], history.ends[31]] {
                compare(
                    &history,
                    length,
                    Asked {
                        login: 1,
                        over,
                        right,
                    },
                );
            }
        }
    }
}
