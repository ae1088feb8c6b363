//! Rights, their codes, and the cells that hold them.

/// The form of a basic right. The star is the copy flag (Manual 1.2).
#[derive(Clone, Copy, Debug, PartialEq, Eq, PartialOrd, Ord, Hash)]
pub enum Form {
    Plain,
    Starred,
}

/// A right (Manual 1.2).
#[derive(Clone, Copy, Debug, PartialEq, Eq, PartialOrd, Ord, Hash)]
pub enum Right {
    Own,
    Control,
    /// The basic right k and its form. Which k there are, the record's version says; none has one above 14.
    Basic(u64, Form),
}

impl Right {
    /// The right of a code, which is the same at every version; none where the code is over 31, which no
    /// version has. `Version::right` takes only the codes of its version.
    pub fn from_code(code: u64) -> Option<Right> {
        match code {
            0 => Some(Right::Own),
            1 => Some(Right::Control),
            2..=31 if code.is_multiple_of(2) => Some(Right::Basic((code - 2) / 2, Form::Plain)),
            2..=31 => Some(Right::Basic((code - 3) / 2, Form::Starred)),
            _ => None,
        }
    }

    /// The code of a right: the number of its bit in a cell (Manual 1.2).
    pub fn code(self) -> u64 {
        match self {
            Right::Own => 0,
            Right::Control => 1,
            Right::Basic(k, Form::Plain) => 2 + 2 * k,
            Right::Basic(k, Form::Starred) => 3 + 2 * k,
        }
    }
}

/// A cell of the matrix: the set of rights whose bits are set in it. It has the bits of the widest version, so
/// that the state does not depend on the version of the record that it was read from.
#[derive(Clone, Copy, Debug, Default, PartialEq, Eq, PartialOrd, Ord, Hash)]
pub struct Cell(pub u32);

impl Cell {
    /// The bit of this right alone.
    fn bit(right: Right) -> u32 {
        1 << right.code()
    }

    /// Whether the right's own bit is set.
    pub fn has(self, right: Right) -> bool {
        self.0 & Cell::bit(right) != 0
    }

    /// Whether a right is held (Manual 1.3). Own and control are held by their bits alone. A basic right is held
    /// by its bit, plain by the starred bit too, and in both forms by own. The commands do not ask this; they
    /// look at the bits, by `has`.
    pub fn held(self, right: Right) -> bool {
        match right {
            Right::Own | Right::Control => self.has(right),
            Right::Basic(k, _) => {
                let starred = Right::Basic(k, Form::Starred);
                self.has(right) || self.has(starred) || self.has(Right::Own)
            }
        }
    }

    /// The cell with the right's bit set.
    pub fn with(self, right: Right) -> Cell {
        Cell(self.0 | Cell::bit(right))
    }

    /// The cell with the right's bit cleared.
    pub fn without(self, right: Right) -> Cell {
        Cell(self.0 & !Cell::bit(right))
    }
}
