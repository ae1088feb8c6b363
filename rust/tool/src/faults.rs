//! Why a record is refused: the first of the refusals 1 to 5 that holds, and for 5 each place where the matrix is not valid. The
//! verdict is the library's; a test compares the two on damaged records.

use crate::library::{Header, MOST_PLAIN, MOST_RECORD_BYTES, MOST_SUBJECTS, Refusal, Right};
use crate::names::{Names, counted, listed};
use crate::record::{Name, Record, rights_in};

/// One reason: the refusal, the names it is about, and a sentence.
pub struct Fault {
    pub refusal: u8,
    pub at: Vec<Name>,
    pub sentence: String,
}

/// The reasons for a refusal that the library gave; none where it gave none.
pub fn reasons(bytes: &[u8], refusal: Option<Refusal>, names: &Names) -> Vec<Fault> {
    let number = refusal.map_or(0, Refusal::number);
    let faults = faults(bytes, names).into_iter();
    faults.filter(|fault| fault.refusal == number).collect()
}

/// The reasons for which bytes are no valid record, found without the library.
pub fn faults(bytes: &[u8], names: &Names) -> Vec<Fault> {
    let (refusal, sentence) = match (form_fault(bytes), Record::shaped(bytes)) {
        (None, Ok(record)) => return matrix_faults(&record, names),
        (Some(fault), _) => fault,
        (None, Err(refusal)) => (refusal.number(), String::from(refusal.words())),
    };
    vec![Fault {
        refusal,
        at: Vec::new(),
        sentence,
    }]
}

/// Which of the refusals 1 to 4 holds first.
fn form_fault(bytes: &[u8]) -> Option<(u8, String)> {
    let has = bytes.len();
    let Ok(header) = Header::read(bytes) else {
        let sentence = format!("it has {has} of the 7 bytes that a record begins with");
        return Some((1, sentence));
    };
    let Header { version, n, p, .. } = header;
    if !matches!(version, 1 | 2) {
        let sentence =
            format!("its version, byte 0, is {version}, and a record has version 1 or 2");
        Some((2, sentence))
    } else if let Some(sentence) = size_fault(n, p) {
        Some((3, sentence))
    } else {
        length_fault(header, has).map(|sentence| (4, sentence))
    }
}

/// Which of the two counts is out of range, or that both are.
fn size_fault(n: u8, p: u8) -> Option<String> {
    let logins = format!("byte 5 says {n} logins, and a record has 1 to {MOST_SUBJECTS}");
    let logs = format!("byte 6 says {p} logs, and a record has 0 to {MOST_PLAIN}");
    match ((1..=MOST_SUBJECTS).contains(&n), p <= MOST_PLAIN) {
        (true, true) => None,
        (false, true) => Some(logins),
        (true, false) => Some(logs),
        (false, false) => Some(format!("{logins}; {logs}")),
    }
}

/// How the length that a record has, or says, does not fit its version and names.
fn length_fault(header: Header, has: usize) -> Option<String> {
    let (said, should) = (header.length, header.expected_length());
    let logins = counted(u64::from(header.n), "login");
    let logs = counted(u64::from(header.p), "log");
    let such = format!(
        "a record of version {} with {logins} and {logs}",
        header.version
    );
    if has > MOST_RECORD_BYTES {
        Some(format!(
            "it has more than {MOST_RECORD_BYTES} bytes, which no record has"
        ))
    } else if said as usize + 5 != should {
        let right = should - 5;
        Some(format!(
            "bytes 1 to 4 say {said} more bytes, and in {such} there are {right}"
        ))
    } else if has != should {
        Some(format!("it has {has} bytes, and {such} has {should}"))
    } else {
        None
    }
}

/// Each place where the matrix is not valid.
fn matrix_faults(record: &Record, names: &Names) -> Vec<Fault> {
    let mut faults = Vec::new();
    if !record.exists(Name::Login(0)) {
        let sentence = format!("{} is U, and does not exist", names.login(0));
        faults.push(fault([Name::Login(0)], sentence));
    }
    for column in 0..record.columns() {
        let name = record.name(column);
        faults.extend(absent_fault(record, names, name));
        faults.extend(control_of_log(record, names, name));
    }
    for s in record.existing_logins() {
        faults.extend(owner_fault(record, names, s));
        faults.extend(controller_fault(record, names, s));
        faults.extend(cycle_fault(record, names, s));
    }
    faults
}

fn fault<const N: usize>(at: [Name; N], sentence: String) -> Fault {
    Fault {
        refusal: 5,
        at: at.to_vec(),
        sentence,
    }
}

/// A bit in the row or the column of a name that does not exist.
fn absent_fault(record: &Record, names: &Names, name: Name) -> Option<Fault> {
    if record.exists(name) {
        return None;
    }
    let (why, column, row) = match name {
        Name::Login(s) => ("does not control itself, so it is absent", s, Some(s)),
        Name::Log(c) => ("has no owner, so it is absent", c, None),
    };
    let in_column = (0..record.logins()).map(|s| (s, column));
    let in_row = row
        .into_iter()
        .flat_map(|s| (0..record.columns()).map(move |c| (s, c)));
    let (s, c) = in_column
        .chain(in_row)
        .find(|(s, c)| record.cell(*s, *c) != 0)?;
    let rights = names.rights(&rights_in(record.cell(s, c)));
    let it = |other: Name| {
        if other == name {
            String::from("it")
        } else {
            names.name(other)
        }
    };
    let (holder, over) = match (it(Name::Login(s)), it(record.name(c))) {
        (holder, over) if holder == over => (holder, String::from("itself")),
        pair => pair,
    };
    let sentence = format!(
        "{} {why}, but {holder} has {rights} over {over}",
        names.name(name)
    );
    Some(fault([name], sentence))
}

fn control_of_log(record: &Record, names: &Names, name: Name) -> Option<Fault> {
    let Name::Log(column) = name else {
        return None;
    };
    let s = (0..record.logins()).find(|s| record.bit(*s, column, Right::Control))?;
    let sentence = format!(
        "{} has control over {}, and a log has no controller",
        names.login(s),
        names.name(name)
    );
    Some(fault([name], sentence))
}

/// U with an owner, or another login with none or with several.
fn owner_fault(record: &Record, names: &Names, s: u64) -> Option<Fault> {
    let owners = record.owners(s);
    let who = names.login(s);
    let sentence = match (s, owners.as_slice()) {
        (0, []) | (1.., [_]) => return None,
        (0, _) => format!("{who} is U, but is owned by {}", names.logins(&owners)),
        (_, []) => format!("{who} has no owner"),
        (_, _) => format!(
            "{who} has {} owners: {}",
            owners.len(),
            names.logins(&owners)
        ),
    };
    Some(fault([Name::Login(s)], sentence))
}

/// U with another controller, or another login with several.
fn controller_fault(record: &Record, names: &Names, s: u64) -> Option<Fault> {
    let others = record.other_controllers(s);
    let who = names.login(s);
    let sentence = match (s, others.len()) {
        (0, 0) | (1.., 0 | 1) => return None,
        (0, _) => format!("{who} is U, but is controlled by {}", names.logins(&others)),
        (_, count) => format!(
            "{who} has {count} controllers besides itself: {}",
            names.logins(&others)
        ),
    };
    Some(fault([Name::Login(s)], sentence))
}

/// A login that is met again by following owners upward, told once for each circle, at its lowest login.
fn cycle_fault(record: &Record, names: &Names, s: u64) -> Option<Fault> {
    let way = record.way_up(s);
    let last = way[way.len() - 1];
    let closes = record.owners(last).first() == Some(&s);
    if !closes || way.iter().min() != Some(&s) {
        return None;
    }
    let sentence = if way.len() == 1 {
        format!("{} owns itself", names.login(s))
    } else {
        let up = listed(way[1..].iter().map(|owner| names.login(*owner)));
        let who = names.login(s);
        format!(
            "{who} is above itself: following owners upward it meets {up}, and then {who} again"
        )
    };
    Some(fault([Name::Login(s)], sentence))
}
