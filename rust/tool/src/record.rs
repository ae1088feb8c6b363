//! A record's bytes, read to be printed and explained. Whether a record may be read at all is the library's answer.

use crate::library::{Header, Refusal, Right, check};
use crate::names::counted;

/// A record of the right form, which is valid unless it was made by `shaped`.
#[derive(Clone, PartialEq, Eq)]
pub struct Record {
    pub bytes: Vec<u8>,
    header: Header,
}

/// A name: a login by its number, or a log by its column.
#[derive(Clone, Copy, Debug, PartialEq, Eq, PartialOrd, Ord)]
pub enum Name {
    Login(u64),
    Log(u64),
}

impl Record {
    /// The record of bytes that the library does not refuse.
    pub fn open(bytes: &[u8]) -> Result<Record, Refusal> {
        check(bytes)?;
        Record::shaped(bytes)
    }

    /// Bytes that the library does not refuse, or refuses for their matrix alone (5).
    pub fn shaped(bytes: &[u8]) -> Result<Record, Refusal> {
        Ok(Record {
            bytes: bytes.to_vec(),
            header: Header::read(bytes)?,
        })
    }

    /// The number of login names.
    pub fn logins(&self) -> u64 {
        u64::from(self.header.n)
    }

    /// The number of log names.
    pub fn logs(&self) -> u64 {
        u64::from(self.header.p)
    }

    /// The version, 1 or 2.
    pub fn version(&self) -> u8 {
        self.header.version
    }

    /// The rights that the version has, in the order of their codes.
    pub fn rights(&self) -> &'static [Right] {
        self.header.rights()
    }

    /// How many of them are basic rights, without the star.
    pub fn basics(&self) -> u64 {
        self.header.basic_rights()
    }

    /// The rights for which another version has no room, with the login and the name of each cell that has some.
    pub fn beyond(&self, version: u8) -> Vec<(u64, Name, Vec<Right>)> {
        let other = Header {
            version,
            ..self.header
        };
        let cells = (0..self.logins()).flat_map(|s| (0..self.columns()).map(move |c| (s, c)));
        let rights = cells.map(|(s, c)| {
            let mut rights = rights_in(self.cell(s, c));
            rights.retain(|right| !other.rights().contains(right));
            (s, self.name(c), rights)
        });
        rights.filter(|(_, _, rights)| !rights.is_empty()).collect()
    }

    /// That the version has no basic right of a number, in words.
    pub fn without(&self, k: u64) -> String {
        let (version, last) = (self.version(), self.basics() - 1);
        format!(
            "r{k} is beyond the record, which is of version {version} and has the basic rights r0 to r{last}"
        )
    }

    /// The number of columns: logins first, then logs.
    pub fn columns(&self) -> u64 {
        u64::from(self.header.columns())
    }

    /// The name of a column.
    pub fn name(&self, column: u64) -> Name {
        if column < self.logins() {
            Name::Login(column)
        } else {
            Name::Log(column)
        }
    }

    /// The bits of a cell; none for a name beyond the record.
    pub fn cell(&self, login: u64, column: u64) -> u32 {
        self.header.cell(&self.bytes, login, column).unwrap_or(0)
    }

    /// Whether the bit of a right is set.
    pub fn bit(&self, login: u64, column: u64, right: Right) -> bool {
        right.in_cell(self.cell(login, column))
    }

    /// Whether a name exists: a login that controls itself, a log that somebody owns.
    pub fn exists(&self, name: Name) -> bool {
        match name {
            Name::Login(s) => self.bit(s, s, Right::Control),
            Name::Log(c) => c >= self.logins() && !self.owners(c).is_empty(),
        }
    }

    /// The names that exist, logins first.
    pub fn existing(&self) -> Vec<Name> {
        let names = (0..self.columns()).map(|column| self.name(column));
        names.filter(|name| self.exists(*name)).collect()
    }

    /// The logins that exist.
    pub fn existing_logins(&self) -> Vec<u64> {
        let logins = 0..self.logins();
        logins.filter(|s| self.exists(Name::Login(*s))).collect()
    }

    /// The logins that own a column.
    pub fn owners(&self, column: u64) -> Vec<u64> {
        let logins = 0..self.logins();
        logins
            .filter(|s| self.bit(*s, column, Right::Own))
            .collect()
    }

    /// The logins that control another login.
    pub fn other_controllers(&self, login: u64) -> Vec<u64> {
        let others = (0..self.logins()).filter(|s| *s != login);
        others
            .filter(|s| self.bit(*s, login, Right::Control))
            .collect()
    }

    /// The columns that a login owns.
    pub fn owned(&self, login: u64) -> Vec<u64> {
        let columns = 0..self.columns();
        columns
            .filter(|c| self.bit(login, *c, Right::Own))
            .collect()
    }

    /// The owners met from a login upward, itself first, up to U or the first that is met again.
    pub fn way_up(&self, login: u64) -> Vec<u64> {
        let mut way = vec![login];
        loop {
            let last = way[way.len() - 1];
            match self.owners(last).first() {
                Some(owner) if !way.contains(owner) => way.push(*owner),
                _ => return way,
            }
        }
    }
}

/// The column of a name.
pub fn column_of(name: Name) -> u64 {
    match name {
        Name::Login(column) | Name::Log(column) => column,
    }
}

/// The rights whose bits are set in a cell.
pub fn rights_in(cell: u32) -> Vec<Right> {
    let all = Right::ALL.into_iter();
    all.filter(|right| right.in_cell(cell)).collect()
}

/// How many names there are and exist, and first the version where it is not 1.
pub fn sizes(record: &Record) -> String {
    let existing = record.existing();
    let logs = existing.iter().filter(|name| matches!(name, Name::Log(_)));
    let logs = logs.count();
    let logins = existing.len() - logs;
    let names = [
        (record.logins(), "login", logins),
        (record.logs(), "log", logs),
    ];
    let told = names.map(|(all, noun, exist)| format!("{}, {exist} existing", counted(all, noun)));
    let version = match record.version() {
        1 => String::new(),
        version => format!("version {version}; "),
    };
    format!("{version}{}", told.join("; "))
}
