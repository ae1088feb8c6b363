//! The state (Manual 1.3): which bits are set in the cell of any subject's row and any name's column.

use std::collections::BTreeMap;

use crate::rights::{Cell, Right};

/// A name of one of the two kinds, by its number within the kind (Manual 1.1).
#[derive(Clone, Copy, Debug, PartialEq, Eq, PartialOrd, Ord, Hash)]
pub enum Name {
    Subject(u64),
    Plain(u64),
}

/// The universal subject.
pub const U: u64 = 0;

/// The answer of the owner walk: whether the wanted name was met, and the number of owner links followed.
#[derive(Clone, Copy, Debug, PartialEq, Eq)]
pub struct Walk {
    pub met: bool,
    pub links: u64,
}

/// The cells that are not zero, by column and then row; all other cells, of any name, are zero. Since no zero
/// cell is kept, two states are the same exactly if their maps are.
#[derive(Clone, Debug, Default, PartialEq, Eq, PartialOrd, Ord, Hash)]
pub struct State {
    cells: BTreeMap<(Name, u64), Cell>,
}

impl State {
    /// The state with these cells, given as column, row and cell; zero cells are left out.
    pub fn from_cells(cells: impl Iterator<Item = (Name, u64, Cell)>) -> State {
        let cells = cells.filter(|(_, _, cell)| *cell != Cell(0));
        State {
            cells: cells
                .map(|(column, row, cell)| ((column, row), cell))
                .collect(),
        }
    }

    /// All cells that are not zero, as column, row and cell.
    pub fn cells(&self) -> impl Iterator<Item = (Name, u64, Cell)> {
        self.cells
            .iter()
            .map(|((column, row), cell)| (*column, *row, *cell))
    }

    /// The cell in a row and a column.
    pub fn cell(&self, row: u64, column: Name) -> Cell {
        self.cells.get(&(column, row)).copied().unwrap_or_default()
    }

    fn set(&mut self, row: u64, column: Name, cell: Cell) {
        if cell == Cell(0) {
            self.cells.remove(&(column, row));
        } else {
            self.cells.insert((column, row), cell);
        }
    }

    /// Whether the right's own bit is set.
    pub fn has(&self, row: u64, column: Name, right: Right) -> bool {
        self.cell(row, column).has(right)
    }

    /// Whether the right is held: by its bit, or by another that counts as holding it.
    pub fn held(&self, row: u64, column: Name, right: Right) -> bool {
        self.cell(row, column).held(right)
    }

    /// Sets the right's bit.
    pub fn gain(&mut self, row: u64, column: Name, right: Right) {
        self.set(row, column, self.cell(row, column).with(right));
    }

    /// Clears the right's bit.
    pub fn lose(&mut self, row: u64, column: Name, right: Right) {
        self.set(row, column, self.cell(row, column).without(right));
    }

    /// The rows whose cell in this column has the right's bit.
    pub fn rows_with(&self, column: Name, right: Right) -> impl Iterator<Item = u64> {
        self.cells
            .range((column, u64::MIN)..=(column, u64::MAX))
            .filter(move |(_, cell)| cell.has(right))
            .map(|((_, row), _)| *row)
    }

    /// Existence (Manual 3.1): of a subject by control in its own cell, of a plain object by an owner.
    pub fn exists(&self, name: Name) -> bool {
        match name {
            Name::Subject(s) => self.has(s, name, Right::Control),
            Name::Plain(_) => self.rows_with(name, Right::Own).next().is_some(),
        }
    }

    /// The names that a row owns.
    pub fn owned_by(&self, row: u64) -> Vec<Name> {
        let owned = self
            .cells()
            .filter(|(_, r, cell)| *r == row && cell.has(Right::Own));
        owned.map(|(column, _, _)| column).collect()
    }

    /// Clears every cell of a row.
    pub fn clear_row(&mut self, row: u64) {
        self.cells.retain(|(_, r), _| *r != row);
    }

    /// Clears every cell of a column.
    pub fn clear_column(&mut self, column: Name) {
        self.cells.retain(|(c, _), _| *c != column);
    }

    /// The owner walk (Manual 4.2), from owner to owner, with the links counted.
    ///
    /// It is asked of valid states only, where every existing subject but U has one owner and the owners of
    /// owners come to U.
    pub fn walk(&self, start: u64, wanted: Name) -> Walk {
        let mut at = start;
        let mut links = 0;
        loop {
            if Name::Subject(at) == wanted {
                return Walk { met: true, links };
            }
            if at == U {
                return Walk { met: false, links };
            }
            at = self
                .rows_with(Name::Subject(at), Right::Own)
                .next()
                .expect("an existing subject other than U has an owner in a valid state");
            links += 1;
        }
    }
}
