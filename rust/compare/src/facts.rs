//! What a station's state says, sorted so that commands which are likely to be accepted can be drawn from it.

use reference::{Form, Name, Right, Station};

use crate::matrix::basic_rights;
use crate::random::Random;

/// Lists of names and of pairs of names of one station; columns are given by their numbers.
#[derive(Default)]
pub struct Facts {
    /// How many basic rights the station's record has.
    pub basic_rights: u64,
    pub subjects: Vec<u64>,
    pub absent_subjects: Vec<u64>,
    pub absent_plains: Vec<u64>,
    /// A row and a subject column that it owns.
    pub owned_subjects: Vec<(u64, u64)>,
    /// A row and a plain column that it owns.
    pub owned_plains: Vec<(u64, u64)>,
    /// A row and a subject that it controls.
    pub controlled: Vec<(u64, u64)>,
    /// A row, a column and a basic right that the row has plain over it.
    pub plains: Vec<(u64, u64, u64)>,
    /// A row, a column and a basic right that the row has starred over it.
    pub stars: Vec<(u64, u64, u64)>,
}

impl Facts {
    pub fn of(station: &Station) -> Facts {
        let mut facts = Facts {
            basic_rights: basic_rights(station.version.byte()),
            ..Facts::default()
        };
        let exists = |column: &u64| station.state.exists(station.name(*column));
        (facts.subjects, facts.absent_subjects) = (0..station.n).partition(exists);
        let plains = station.n..station.n + station.p;
        facts.absent_plains = plains.filter(|column| !exists(column)).collect();
        for (name, row, cell) in station.state.cells() {
            let (Name::Subject(column) | Name::Plain(column)) = name;
            if cell.has(Right::Own) {
                match name {
                    Name::Subject(_) => facts.owned_subjects.push((row, column)),
                    Name::Plain(_) => facts.owned_plains.push((row, column)),
                }
            }
            if cell.has(Right::Control) {
                facts.controlled.push((row, column));
            }
            for k in 0..facts.basic_rights {
                if cell.has(Right::Basic(k, Form::Plain)) {
                    facts.plains.push((row, column, k));
                }
                if cell.has(Right::Basic(k, Form::Starred)) {
                    facts.stars.push((row, column, k));
                }
            }
        }
        facts
    }

    /// A row and a column that it owns, of either kind.
    fn owned(&self, random: &mut Random) -> Option<(u64, u64)> {
        let of_plains = random.one_in(2) || self.owned_subjects.is_empty();
        some_of(
            if of_plains {
                &self.owned_plains
            } else {
                &self.owned_subjects
            },
            random,
        )
    }

    /// A command of this code that is likely to be accepted, where the state has one.
    pub fn likely_command(&self, code: u64, random: &mut Random) -> Option<[u64; 5]> {
        let i = random.pick(&self.subjects);
        let s = random.pick(&self.subjects);
        let k = random.below(self.basic_rights);
        Some(match code {
            1 | 2 => {
                let (i, o, k) = some_of(&self.stars, random)?;
                [code, i, s, o, k]
            }
            3 => {
                let (i, o) = self.owned(random)?;
                [code, i, s, o, 0]
            }
            6 => {
                let (i, o) = some_of(&self.owned_subjects, random)?;
                [code, i, s, o, 0]
            }
            4 | 5 => {
                let (i, o) = self.owned(random)?;
                [code, i, s, o, k]
            }
            7 => {
                let (i, o) = some_of(&self.owned_plains, random)?;
                [code, i, s, o, 0]
            }
            8 | 9 => self.likely_deletion(code, s, k, random)?,
            10 => [code, i, 0, some_of(&self.absent_plains, random)?, 0],
            11 => {
                let (i, o) = some_of(&self.owned_plains, random)?;
                [code, i, 0, o, 0]
            }
            12 => [code, i, some_of(&self.absent_subjects, random)?, 0, 0],
            _ => {
                let (i, s) = some_of(&self.owned_subjects, random)?;
                [code, i, s, 0, 0]
            }
        })
    }

    /// Delete: of a bit that is set or of any, by an owner of o or by a controller of s.
    fn likely_deletion(&self, code: u64, s: u64, k: u64, random: &mut Random) -> Option<[u64; 5]> {
        let of_form = if code == 8 { &self.plains } else { &self.stars };
        let set = some_of(of_form, random).filter(|_| !random.one_in(4));
        let (s, o, k) = match set {
            Some(bit) => bit,
            None => (s, self.owned(random)?.1, k),
        };
        let owned = self.owned_subjects.iter().chain(&self.owned_plains);
        let owners = rows_of(owned, o);
        let controllers = rows_of(self.controlled.iter(), s);
        let among = if random.one_in(2) && !owners.is_empty() {
            owners
        } else {
            controllers
        };
        Some([code, some_of(&among, random)?, s, o, k])
    }
}

/// The rows that stand in pairs with a column.
fn rows_of<'a>(pairs: impl Iterator<Item = &'a (u64, u64)>, column: u64) -> Vec<u64> {
    let of_column = pairs.filter(|(_, other)| *other == column);
    of_column.map(|(row, _)| *row).collect()
}

/// One element, if there is one.
fn some_of<T: Copy>(from: &[T], random: &mut Random) -> Option<T> {
    (!from.is_empty()).then(|| random.pick(from))
}
