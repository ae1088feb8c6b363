//! Rights: own, control, and the fifteen basic rights, each plain or starred.

use std::error::Error;
use std::fmt;
use std::str::FromStr;

/// A basic right, by its number k. What it lets its holder do with a log is the clinic's to say; the library only keeps it.
///
/// There are fifteen and no more, so that no number out of range can be taken for one. A record of version 2 has all of them, and one
/// of version 1 the first seven; see [`Header::basic_rights`](crate::Header::basic_rights).
///
/// ```
/// use bunvespo::Basic;
///
/// assert_eq!(Basic::from_number(14), Some(Basic::R14));
/// assert_eq!(Basic::from_number(15), None);
/// assert_eq!(Basic::from_number(u64::MAX), None);
/// ```
#[repr(u8)]
#[derive(Clone, Copy, Debug, PartialEq, Eq, PartialOrd, Ord, Hash)]
pub enum Basic {
    /// Basic right 0.
    R0 = 0,
    /// Basic right 1.
    R1 = 1,
    /// Basic right 2.
    R2 = 2,
    /// Basic right 3.
    R3 = 3,
    /// Basic right 4.
    R4 = 4,
    /// Basic right 5.
    R5 = 5,
    /// Basic right 6.
    R6 = 6,
    /// Basic right 7, of version 2.
    R7 = 7,
    /// Basic right 8, of version 2.
    R8 = 8,
    /// Basic right 9, of version 2.
    R9 = 9,
    /// Basic right 10, of version 2.
    R10 = 10,
    /// Basic right 11, of version 2.
    R11 = 11,
    /// Basic right 12, of version 2.
    R12 = 12,
    /// Basic right 13, of version 2.
    R13 = 13,
    /// Basic right 14, of version 2.
    R14 = 14,
}

impl Basic {
    /// Every basic right, in number order.
    pub const ALL: [Basic; 15] = [
        Basic::R0,
        Basic::R1,
        Basic::R2,
        Basic::R3,
        Basic::R4,
        Basic::R5,
        Basic::R6,
        Basic::R7,
        Basic::R8,
        Basic::R9,
        Basic::R10,
        Basic::R11,
        Basic::R12,
        Basic::R13,
        Basic::R14,
    ];

    /// The number k, 0 to 14, as a command's field has it.
    pub const fn number(self) -> u64 {
        self as u64
    }

    /// The basic right of a number, if it is 0 to 14.
    pub fn from_number(k: u64) -> Option<Basic> {
        Basic::ALL.get(usize::try_from(k).ok()?).copied()
    }
}

/// A right that a subject may have over a column. Those with a basic right above 6 are of records of version 2 alone; on one of
/// version 1 each call refuses them by 7.
///
/// It is written and read as `own`, `control`, `r0` to `r14`, and with the star `r0*` to `r14*`:
///
/// ```
/// use bunvespo::{Basic, Right};
///
/// let right: Right = "r2*".parse()?;
/// assert_eq!(right, Right::Starred(Basic::R2));
/// assert_eq!(right.code(), 7);
/// assert_eq!(Right::from_code(7), Some(right));
/// assert_eq!(right.to_string(), "r2*");
/// # Ok::<(), bunvespo::ParseRightError>(())
/// ```
#[derive(Clone, Copy, Debug, PartialEq, Eq, PartialOrd, Ord, Hash)]
pub enum Right {
    /// Own: of a subject, to be the one owner; of a log, to be one of its owners.
    Own,
    /// Control, which only a subject has over itself or another subject.
    Control,
    /// A basic right without the star.
    Plain(Basic),
    /// A basic right with the star: its holder may pass the right on, with the star or without.
    Starred(Basic),
}

impl Right {
    /// Every right, in the order of the codes: `Right::ALL[code]` has that code.
    pub const ALL: [Right; 32] = {
        let mut all = [Right::Own; 32];
        all[1] = Right::Control;
        let mut k = 0;
        while k < Basic::ALL.len() {
            all[2 + 2 * k] = Right::Plain(Basic::ALL[k]);
            all[3 + 2 * k] = Right::Starred(Basic::ALL[k]);
            k += 1;
        }
        all
    };

    /// The code, 0 to 31, which is the number of the right's bit in a cell.
    pub const fn code(self) -> u64 {
        match self {
            Right::Own => 0,
            Right::Control => 1,
            Right::Plain(k) => 2 + 2 * k.number(),
            Right::Starred(k) => 3 + 2 * k.number(),
        }
    }

    /// The right of a code, if it is 0 to 31.
    ///
    /// ```
    /// use bunvespo::Right;
    ///
    /// assert_eq!(Right::from_code(0), Some(Right::Own));
    /// assert_eq!(Right::from_code(32), None);
    /// assert_eq!(Right::from_code(u64::MAX), None);
    /// ```
    pub fn from_code(code: u64) -> Option<Right> {
        Right::ALL.get(usize::try_from(code).ok()?).copied()
    }

    /// Whether the right's own bit is set in a cell. That is not all that makes a right held: ask [`held`](crate::held) for that.
    ///
    /// ```
    /// use bunvespo::{Basic, Right};
    ///
    /// let cell = 0b1001; // own, and r0 with the star
    /// assert!(Right::Own.in_cell(cell));
    /// assert!(Right::Starred(Basic::R0).in_cell(cell));
    /// assert!(!Right::Plain(Basic::R0).in_cell(cell));
    /// ```
    pub const fn in_cell(self, cell: u32) -> bool {
        cell >> self.code() & 1 == 1
    }
}

impl fmt::Display for Right {
    fn fmt(&self, f: &mut fmt::Formatter<'_>) -> fmt::Result {
        match self {
            Right::Own => f.pad("own"),
            Right::Control => f.pad("control"),
            Right::Plain(k) => f.pad(&format!("r{}", k.number())),
            Right::Starred(k) => f.pad(&format!("r{}*", k.number())),
        }
    }
}

impl FromStr for Right {
    type Err = ParseRightError;

    fn from_str(text: &str) -> Result<Right, ParseRightError> {
        let named = |right: &Right| right.to_string() == text;
        Right::ALL.into_iter().find(named).ok_or(ParseRightError)
    }
}

/// A text that names no right.
///
/// ```
/// use bunvespo::{ParseRightError, Right};
///
/// assert_eq!("r15".parse::<Right>(), Err(ParseRightError));
/// assert_eq!(ParseRightError.to_string(), "a right is own, control, r0 to r14, or r0* to r14*");
/// ```
#[derive(Clone, Copy, Debug, PartialEq, Eq)]
pub struct ParseRightError;

impl fmt::Display for ParseRightError {
    fn fmt(&self, f: &mut fmt::Formatter<'_>) -> fmt::Result {
        f.write_str("a right is own, control, r0 to r14, or r0* to r14*")
    }
}

impl Error for ParseRightError {}
