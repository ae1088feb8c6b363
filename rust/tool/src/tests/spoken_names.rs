//! Files of names, and words by name or number.

use crate::json;
use crate::leak::members;
use crate::library::{Basic, Right, new_record};
use crate::names::Names;
use crate::names_file::parse;
use crate::record::{Name, Record};
use crate::spoken::{column, login, right, trusted};
use crate::tests::random::LARGEST;

fn record() -> Record {
    Record::open(&new_record(3, 2).unwrap()).unwrap()
}

fn names(text: &str) -> Names {
    parse(text, &[&record()]).unwrap_or_else(|why| panic!("{why}"))
}

#[test]
fn a_file_of_names() {
    let text =
        "# the ward\r\n\nlogin 1 = night-nurse\n log  3=bed 3 \nright 0 = read\nlogin 0 = Ärztin\n";
    let names = names(text);
    assert_eq!(names.login(1), "night-nurse");
    assert_eq!(names.name(record().name(3)), "\"bed 3\"");
    assert_eq!(names.label(record().name(3)), "bed 3");
    assert_eq!(names.right(Right::Starred(Basic::R0)), "read*");
    assert_eq!(names.login(2), "login 2");
    assert_eq!(login("Ärztin", &names), Ok(0));
}

#[test]
fn lines_that_are_refused() {
    for (text, said) in [
        ("login 1", "line 1: a line is"),
        ("\n\nnurse 1 = a", "line 3: a line is"),
        ("login = a", "line 1: a line is"),
        ("login x = a", "'x' is no number"),
        ("login 1 =", "there is no name"),
        ("login 3 = a", "login 3 is beyond the record"),
        ("log 2 = a", "the record has logs 3 to 4"),
        (
            "right 7 = a",
            "r7 is beyond the record, which is of version 1 and has the basic rights r0 to r6",
        ),
        ("login 1 = 2", "'2' is a number"),
        ("login 1 = -2", "'-2' is a number"),
        ("login 1 = a,b", "has a comma"),
        ("login 1 = a\"b", "a quote"),
        ("right 0 = read*", "a star"),
        ("login 1 = #a", "begins with #"),
        ("login 1 = none", "a meaning of its own"),
        ("login 1 = log 3", "a meaning of its own"),
        ("right 1 = r0", "the word for a right already"),
        ("right 1 = own", "the word for a right already"),
        ("login 1 = a\nlog 3 = a", "line 2: 'a' is given twice"),
        ("right 0 = a\nright 1 = a", "line 2: 'a' is given twice"),
        (
            "login 1 = a\nlogin 1 = b",
            "line 2: it has the name 'a' already",
        ),
    ] {
        match parse(text, &[&record()]) {
            Ok(_) => panic!("{text:?} is taken"),
            Err(why) => assert!(why.contains(said), "{text:?}: {why}"),
        }
    }
}

/// A window has no record: then a file may name what some record has.
#[test]
fn names_without_a_record() {
    let (logins, columns) = (LARGEST.0, LARGEST.0 + LARGEST.1);
    let (login, log) = (logins - 1, columns - 1);
    let text = format!(
        "login {login} = ann\nlog 1 = bed 1\nlog {log} = far\nright 0 = read\nright 14 = bill"
    );
    let names = parse(&text, &[]).unwrap_or_else(|why| panic!("{why}"));
    assert_eq!(names.login(login), "ann");
    assert_eq!(names.label(Name::Log(log)), "far");
    let logs_are = format!("is in no record, and logs are 1 to {log}");
    for (text, said) in [
        (
            format!("login {logins} = a"),
            format!("login {logins} is in no record, and logins are 0 to {login}"),
        ),
        (String::from("log 0 = a"), format!("log 0 {logs_are}")),
        (
            format!("log {columns} = a"),
            format!("log {columns} {logs_are}"),
        ),
        (
            String::from("right 15 = a"),
            String::from("right 15 is in no record, and basic rights are 0 to 14"),
        ),
        (
            String::from("login 1 = a\nlog 3 = a"),
            String::from("line 2: 'a' is given twice"),
        ),
    ] {
        let why = parse(&text, &[]).err().unwrap_or_default();
        assert!(why.contains(&said), "{text:?}: {why}");
    }
}

#[test]
fn words_by_name_and_number() {
    let (record, names) = (
        record(),
        names("login 1 = ann\nlog 3 = bed\nright 2 = read"),
    );
    assert_eq!(login("1", &names), Ok(1));
    assert_eq!(login("login 7", &names), Ok(7));
    assert_eq!(login("ann", &names), Ok(1));
    assert!(login("bed", &names).unwrap_err().contains("is a log"));
    assert!(login("bob", &names).is_err() && login("", &names).is_err());
    assert!(
        login("99999999999999999999", &names)
            .unwrap_err()
            .contains("too large")
    );
    assert_eq!(column("bed", &record, &names), Ok(3));
    assert_eq!(column("log 4", &record, &names), Ok(4));
    assert_eq!(column("9", &record, &names), Ok(9));
    assert!(column("log 2", &record, &names).is_err());
    assert!(column("login 3", &record, &names).is_err());
    let right = |word| right(word, &record, &names);
    assert_eq!(right("read*"), Ok(Right::Starred(Basic::R2)));
    assert_eq!(right("r2"), Ok(Right::Plain(Basic::R2)));
    assert_eq!(right("15"), Ok(Right::Starred(Basic::R6)));
    for wrong in ["16", "r7", "r10", "own*", "rr", "*", "", "r+1"] {
        assert!(right(wrong).is_err(), "{wrong}");
    }
    assert_eq!(trusted("ann,0", &record, &names), Ok(3));
    assert_eq!(trusted("none", &record, &names), Ok(0));
    assert_eq!(trusted("all", &record, &names), Ok(7));
    for wrong in ["", "0,", "64", "0,x", "bed"] {
        assert!(trusted(wrong, &record, &names).is_err(), "{wrong}");
    }
}

/// A mask has logins that no record has, too. Which the record has is for the library to say.
#[test]
fn every_login_of_a_mask() {
    let (record, names) = (record(), Names::default());
    let logins = Vec::from_iter(0..64);
    for s in &logins {
        let mask = trusted(&s.to_string(), &record, &names);
        assert_eq!(mask.map(members), Ok(vec![*s]));
    }
    assert_eq!(members(0), []);
    assert_eq!(members(u64::MAX), logins);
}

#[test]
fn texts_in_json() {
    assert_eq!(json::text("a\"b\\c\u{1}ä"), "\"a\\\"b\\\\c\\u0001ä\"");
}
