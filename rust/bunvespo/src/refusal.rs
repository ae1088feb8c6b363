//! The nineteen refusals.

use std::error::Error;
use std::fmt;

/// Why a call is turned down. Each call tests its conditions in an order of its own and gives the first that holds: all calls on a
/// record but `valid` begin with 1 to 5; then `held` tests 7, `command` 6 to 12, 19, 13 and 14, `run` 16 and then those of `command` for
/// each command in its turn, `safety` 7 and 15, `to_version_1` 18 and 15, and `to_version_2` 15.
///
/// ```
/// use bunvespo::{Refusal, Right, held};
///
/// fn owns(record: &[u8], s: u64, o: u64) -> Result<bool, Refusal> {
///     Ok(held(record, s, o, Right::Own)?)
/// }
///
/// let refusal = owns(&[], 0, 0).unwrap_err();
/// assert_eq!(refusal, Refusal::RecordShort);
/// assert_eq!(refusal.number(), 1);
/// assert_eq!(refusal.words(), "the record has fewer than 7 bytes");
/// assert_eq!(refusal.to_string(), "refused 1: the record has fewer than 7 bytes");
/// ```
#[repr(u8)]
#[derive(Clone, Copy, Debug, PartialEq, Eq, PartialOrd, Ord, Hash)]
pub enum Refusal {
    /// The record has no whole header. Every call on a record but `valid` gives this and the next four.
    RecordShort = 1,
    /// The record is of a version that the library does not know.
    Version = 2,
    /// The record has too many or too few names.
    Counts = 3,
    /// The record is longer or shorter than one of its version and sizes should be, or says that it is.
    RecordLength = 4,
    /// The record's matrix breaks a condition of validity.
    NotValid = 5,
    /// No command has the code. This and the refusals up to 14, but for 7, and 19 are of `command` and `run` alone.
    Code = 6,
    /// A number is out of range, which for k and for rights depends on the record's version, or one that should be 0 is not. Given by
    /// `held`, `command`, `run` and `safety`.
    Bounds = 7,
    /// The command's initiator does not exist.
    InitiatorAbsent = 8,
    /// The command's column is a subject and should be a log, or is a log and should be a subject.
    Kind = 9,
    /// The command's subject or column does not exist and should.
    NameAbsent = 10,
    /// The subject or log that the command would make exists.
    NameExists = 11,
    /// The initiator does not have what the command asks of it.
    RightLacking = 12,
    /// The command would put a subject below itself in the tree of owners.
    WalkMeets = 13,
    /// Somebody besides the column controls it.
    OtherController = 14,
    /// The buffer can't hold the longest list, given by `safety`; the output can't hold the new record, given by `to_version_1` and
    /// `to_version_2`; or the copy can't hold the record, given by `first_held`.
    BufferShort = 15,
    /// The bytes of the list are no list. Given by `run` and `first_held` alone.
    ListForm = 16,
    /// The number has no count in a window. Given by `Window` alone.
    WindowNumber = 17,
    /// A cell has a basic right above 6, which no record of version 1 has. Given by `to_version_1` alone.
    HighRight = 18,
    /// The command would delete a right whose bit is not set. To own the column, or to have the other form of the right, makes no
    /// difference.
    NotSet = 19,
}

impl Refusal {
    /// Every refusal, in number order.
    pub const ALL: [Refusal; 19] = [
        Refusal::RecordShort,
        Refusal::Version,
        Refusal::Counts,
        Refusal::RecordLength,
        Refusal::NotValid,
        Refusal::Code,
        Refusal::Bounds,
        Refusal::InitiatorAbsent,
        Refusal::Kind,
        Refusal::NameAbsent,
        Refusal::NameExists,
        Refusal::RightLacking,
        Refusal::WalkMeets,
        Refusal::OtherController,
        Refusal::BufferShort,
        Refusal::ListForm,
        Refusal::WindowNumber,
        Refusal::HighRight,
        Refusal::NotSet,
    ];

    /// The number, 1 to 19.
    pub const fn number(self) -> u8 {
        self as u8
    }

    /// The refusal of a number, if it is 1 to 19.
    ///
    /// ```
    /// use bunvespo::Refusal;
    ///
    /// assert_eq!(Refusal::from_number(7), Some(Refusal::Bounds));
    /// assert_eq!(Refusal::from_number(0), None);
    /// assert_eq!(Refusal::from_number(20), None);
    /// ```
    pub fn from_number(number: u64) -> Option<Refusal> {
        let place = usize::try_from(number.checked_sub(1)?).ok()?;
        Refusal::ALL.get(place).copied()
    }

    /// The condition in words, the same as those of the C header.
    pub const fn words(self) -> &'static str {
        match self {
            Refusal::RecordShort => "the record has fewer than 7 bytes",
            Refusal::Version => "the record's version is neither 1 nor 2",
            Refusal::Counts => "the record's n is not 1 to 40, or its p is above 120",
            Refusal::RecordLength => {
                "the record's L or its length does not fit its version, n and p"
            }
            Refusal::NotValid => "the record's matrix is not valid",
            Refusal::Code => "no command has this code",
            Refusal::Bounds => {
                "a name or trust bit is beyond the record, k or the right is out of range, or an unused field is not 0"
            }
            Refusal::InitiatorAbsent => "the initiator does not exist",
            Refusal::Kind => "o is not of the kind that the command takes",
            Refusal::NameAbsent => "s or o does not exist",
            Refusal::NameExists => "the name to be created exists already",
            Refusal::RightLacking => "the initiator lacks the right that the command asks for",
            Refusal::WalkMeets => "the owner walk from s meets o",
            Refusal::OtherController => "somebody else controls o already",
            Refusal::BufferShort => {
                "the buffer is shorter than 5 + 6 (n + 2) bytes, the output than the new record, or the copy than the record"
            }
            Refusal::ListForm => "the list is not of the right form",
            Refusal::WindowNumber => {
                "the initiator, or the number whose count is read, is 64 or more"
            }
            Refusal::HighRight => "a basic right above 6 is set, for which version 1 has no room",
            Refusal::NotSet => "the right to be deleted is not set",
        }
    }
}

impl fmt::Display for Refusal {
    fn fmt(&self, f: &mut fmt::Formatter<'_>) -> fmt::Result {
        write!(f, "refused {}: {}", self.number(), self.words())
    }
}

impl Error for Refusal {}
