//! Pages are whole: tags are closed in turn, names are escaped, and nothing is fetched or run.

use crate::html;
use crate::input::Station;
use crate::leak::{Question, answer};
use crate::library::{Basic, trust_mask};
use crate::names::Names;
use crate::record::Record;
use crate::tests::random::{Numbers, station};

/// Goes over the tags of a page.
fn assert_closed(page: &str) {
    let mut open: Vec<&str> = Vec::new();
    let body = page
        .strip_prefix("<!doctype html>\n")
        .expect("a page begins so");
    for part in body.split('<').skip(1) {
        let (tag, _) = part.split_once('>').expect("a tag is closed");
        let name = tag.split(' ').next().unwrap_or(tag);
        if let Some(name) = name.strip_prefix('/') {
            assert_eq!(open.pop(), Some(name));
        } else if !tag.ends_with('/') && name != "meta" {
            open.push(name);
        }
    }
    assert!(open.is_empty(), "{open:?}");
    for word in ["<script", "src=", "href=", "@import", "url("] {
        assert!(!page.contains(word), "{word}");
    }
    assert_eq!(
        page.matches("http").count(),
        page.matches("http://www.w3.org/2000/svg").count()
    );
}

fn any_station(numbers: &mut Numbers) -> Station {
    let record = Record::open(&station(numbers)).expect("the station is valid");
    let mut names = Names::default();
    for column in 0..record.columns() {
        let name = record.name(column);
        names.of_names.insert(name, format!("<b>&\"{column}'"));
    }
    names.of_rights.insert(Basic::R0, String::from("<i>"));
    if record.version() == 2 {
        names.of_rights.insert(Basic::R14, String::from("<i>14"));
    }
    Station {
        file: String::from("<file>"),
        record,
        names,
    }
}

#[test]
fn pages_of_stations() {
    let mut numbers = Numbers::new(6);
    for _ in 0..150 {
        let page = html::matrix::page(&any_station(&mut numbers));
        assert_closed(&page);
        assert!(!page.contains("<b>") && !page.contains("<i>") && !page.contains("<file>"));
    }
}

#[test]
fn pages_of_leaks() {
    let mut numbers = Numbers::new(7);
    let mut leaks = 0;
    for _ in 0..300 {
        let station = any_station(&mut numbers);
        let (n, columns) = (station.record.logins(), station.record.columns());
        let column = numbers.below(columns);
        let q = Question {
            trust: numbers.below(u64::MAX) & trust_mask(0..n).expect("a mask has all of them"),
            login: numbers.below(n),
            over: station.record.name(column),
            column,
            right: numbers.pick(station.record.rights()),
        };
        let leak = answer(&station, &q).expect("the question is in range");
        leaks += u64::from(leak.as_ref().is_some_and(|steps| !steps.is_empty()));
        let page = html::leak::page(&q, &station, leak.as_deref());
        assert_closed(&page);
        assert!(!page.contains("<b>"));
    }
    assert!(leaks > 50, "{leaks}");
}
