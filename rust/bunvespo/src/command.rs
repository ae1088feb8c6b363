//! A command's five fields, the thirteen codes, and a constructor for each.

use crate::right::Basic;

/// The thirteen codes.
///
/// ```
/// use bunvespo::{Command, code};
///
/// let command = Command::create_subject(0, 1);
/// match command.code {
///     code::CREATE_SUBJECT => assert_eq!(command.s, 1),
///     code::DESTROY_SUBJECT => unreachable!(),
///     _ => unreachable!(),
/// }
/// ```
pub mod code {
    /// i passes on a basic right that it has with the star; s gets it without.
    pub const TRANSFER: u64 = 1;
    /// i passes on a basic right that it has with the star; s gets it with the star.
    pub const TRANSFER_STARRED: u64 = 2;
    /// i, who owns o, makes s an owner in its place. A subject o may not be s or above s.
    pub const TRANSFER_OWN: u64 = 3;
    /// i, who owns o, gives s a basic right.
    pub const GRANT: u64 = 4;
    /// i, who owns o, gives s a basic right with the star.
    pub const GRANT_STARRED: u64 = 5;
    /// i, who owns subject o, gives s control of it.
    pub const GRANT_CONTROL: u64 = 6;
    /// i, who owns log o, makes s one more owner.
    pub const GRANT_OWN: u64 = 7;
    /// i, who owns o or controls s, takes a basic right whose bit is set from s; the starred one stays.
    pub const DELETE: u64 = 8;
    /// i, who owns o or controls s, takes a starred basic right whose bit is set from s; the plain one stays.
    pub const DELETE_STARRED: u64 = 9;
    /// i makes log o, and owns it.
    pub const CREATE_OBJECT: u64 = 10;
    /// i, who owns log o, destroys it.
    pub const DESTROY_OBJECT: u64 = 11;
    /// i makes subject s, and owns it.
    pub const CREATE_SUBJECT: u64 = 12;
    /// i, who owns subject s, destroys it and inherits what it owned.
    pub const DESTROY_SUBJECT: u64 = 13;
}

/// A command as given: five numbers of any size. A call refuses numbers that no command has, and never cuts or wraps one.
///
/// The constructors take the fields that their code uses, in the order i, s, o, k, and set the others to 0:
///
/// ```
/// use bunvespo::{Basic, Command};
///
/// assert_eq!(Command::grant(1, 2, 3, Basic::R0), Command::new(4, 1, 2, 3, 0));
/// assert_eq!(Command::create_object(1, 3), Command::new(10, 1, 0, 3, 0));
/// assert_eq!(Command::destroy_subject(1, 2), Command::new(13, 1, 2, 0, 0));
/// ```
#[derive(Clone, Copy, Debug, PartialEq, Eq, Hash)]
pub struct Command {
    /// Which of the thirteen commands it is, by number: see [`code`].
    pub code: u64,
    /// The initiator, the subject that begins the command.
    pub i: u64,
    /// The subject that gains, loses, is made or is destroyed; 0 in codes 10 and 11.
    pub s: u64,
    /// The column; 0 in codes 12 and 13.
    pub o: u64,
    /// The basic right's number in codes 1, 2, 4, 5, 8 and 9; else 0.
    pub k: u64,
}

impl Command {
    /// The command of these five numbers, whatever they are.
    pub const fn new(code: u64, i: u64, s: u64, o: u64, k: u64) -> Command {
        Command { code, i, s, o, k }
    }

    /// [`code::TRANSFER`]
    pub const fn transfer(i: u64, s: u64, o: u64, k: Basic) -> Command {
        Command::new(code::TRANSFER, i, s, o, k.number())
    }

    /// [`code::TRANSFER_STARRED`]
    pub const fn transfer_starred(i: u64, s: u64, o: u64, k: Basic) -> Command {
        Command::new(code::TRANSFER_STARRED, i, s, o, k.number())
    }

    /// [`code::TRANSFER_OWN`]
    pub const fn transfer_own(i: u64, s: u64, o: u64) -> Command {
        Command::new(code::TRANSFER_OWN, i, s, o, 0)
    }

    /// [`code::GRANT`]
    pub const fn grant(i: u64, s: u64, o: u64, k: Basic) -> Command {
        Command::new(code::GRANT, i, s, o, k.number())
    }

    /// [`code::GRANT_STARRED`]
    pub const fn grant_starred(i: u64, s: u64, o: u64, k: Basic) -> Command {
        Command::new(code::GRANT_STARRED, i, s, o, k.number())
    }

    /// [`code::GRANT_CONTROL`]
    pub const fn grant_control(i: u64, s: u64, o: u64) -> Command {
        Command::new(code::GRANT_CONTROL, i, s, o, 0)
    }

    /// [`code::GRANT_OWN`]
    pub const fn grant_own(i: u64, s: u64, o: u64) -> Command {
        Command::new(code::GRANT_OWN, i, s, o, 0)
    }

    /// [`code::DELETE`]
    pub const fn delete(i: u64, s: u64, o: u64, k: Basic) -> Command {
        Command::new(code::DELETE, i, s, o, k.number())
    }

    /// [`code::DELETE_STARRED`]
    pub const fn delete_starred(i: u64, s: u64, o: u64, k: Basic) -> Command {
        Command::new(code::DELETE_STARRED, i, s, o, k.number())
    }

    /// [`code::CREATE_OBJECT`]
    pub const fn create_object(i: u64, o: u64) -> Command {
        Command::new(code::CREATE_OBJECT, i, 0, o, 0)
    }

    /// [`code::DESTROY_OBJECT`]
    pub const fn destroy_object(i: u64, o: u64) -> Command {
        Command::new(code::DESTROY_OBJECT, i, 0, o, 0)
    }

    /// [`code::CREATE_SUBJECT`]
    pub const fn create_subject(i: u64, s: u64) -> Command {
        Command::new(code::CREATE_SUBJECT, i, s, 0, 0)
    }

    /// [`code::DESTROY_SUBJECT`]
    pub const fn destroy_subject(i: u64, s: u64) -> Command {
        Command::new(code::DESTROY_SUBJECT, i, s, 0, 0)
    }
}
