//! The file of a window, which counts the commands that were refused of late: `run --window` enters commands in it, `refused` reads it.

use std::ffi::OsStr;

use crate::input::{self, called};
use crate::library::{WINDOW_ENTRIES, WINDOW_NUMBERS, WINDOW_SIZE, Window, valid};
use crate::names::counted;
use crate::no_answer::{Answered, no_answer};
use crate::replace::{Fresh, Locked, folder_of, is_missing};

/// The window of a file.
pub fn read(path: &OsStr) -> Answered<Window> {
    window(path, &input::read(path, WINDOW_SIZE)?)
}

/// The bytes of a file as a window, or the sentence that says why they are none. The library answers other bytes too, but their counts
/// mean nothing. A record may have as many bytes as a window and is told by itself, so that none is lost by a slip of words: none is a
/// window, since byte 4 of a record of this length is 124 and a window's entry is 64 at most.
fn window(path: &OsStr, bytes: &[u8]) -> Answered<Window> {
    let (file, length) = (called(path), bytes.len());
    let why = match <[u8; WINDOW_SIZE]>::try_from(bytes) {
        Ok(_) if valid(bytes) => return no_answer(format!("{file} is a record and no window")),
        Ok(bytes) if shows_entries(&bytes) => return Ok(Window::from(bytes)),
        Ok(_) => String::from("its counts are not those of its entries"),
        Err(_) => {
            let has = if length > WINDOW_SIZE {
                format!("{length} bytes or more")
            } else {
                counted(length as u64, "byte")
            };
            format!("it has {has}, and a window has {WINDOW_SIZE}")
        }
    };
    no_answer(format!("{file} is no window: {why}"))
}

/// Whether each entry is one of a login that has a count, or of an accepted command, and each count that of the entries. So it is in
/// every window that the library made, and no other bytes are so.
pub fn shows_entries(bytes: &[u8; WINDOW_SIZE]) -> bool {
    let window = Window::from(*bytes);
    let entries = bytes[..WINDOW_ENTRIES].iter().copied().map(u64::from);
    let of = |number| entries.clone().filter(|entry| *entry == number + 1).count();
    entries.clone().all(|entry| entry <= WINDOW_NUMBERS)
        && (0..WINDOW_NUMBERS).all(|number| window.count(number) == Ok(of(number) as u64))
}

/// The window that a run enters its commands in: the one of a file, or an empty one where the file is to be made.
pub struct Kept {
    file: String,
    window: Window,
    is_new: bool,
    /// The lock of the file or its folder; none in a dry run, which writes nothing.
    locked: Option<Locked>,
}

impl Kept {
    /// Opens a window before a run.
    pub fn open(path: &OsStr, dry: bool) -> Answered<Kept> {
        if path == "-" {
            return no_answer("a window is kept in a file, and can't be the standard input");
        }
        let locked = if dry {
            None
        } else {
            Some(Locked::open_or_new(path)?)
        };
        let is_new = match &locked {
            Some(locked) => locked.is_new(),
            None => is_missing(path)?,
        };
        let window = match &locked {
            _ if is_new => folder_of(path).map(|_| Window::new())?,
            Some(locked) => window(path, &locked.read(WINDOW_SIZE)?)?,
            None => read(path)?,
        };
        Ok(Kept {
            file: called(path),
            window,
            is_new,
            locked,
        })
    }

    /// Enters commands in their order, each the initiator and the outcome, and writes the window beside its place. Nothing is written
    /// where none is entered.
    pub fn enter(mut self, tried: &[(u64, u64)]) -> Answered<Entered> {
        let (mut entered, mut notes) = (false, String::new());
        for (initiator, outcome) in tried {
            match self.window.put(*initiator, *outcome) {
                Ok(()) => entered = true,
                Err(refusal) => notes.push_str(&format!(
                    "The command of login {initiator} is not entered in {}, since a window has counts for the numbers 0 to {} alone (refusal {}).\n",
                    self.file,
                    WINDOW_NUMBERS - 1,
                    refusal.number()
                )),
            }
        }
        let locked = self.locked.as_ref().filter(|_| entered);
        let fresh = locked.map(|locked| locked.prepare(self.window.as_bytes()));
        Ok(Entered {
            fresh: fresh.transpose()?,
            notes,
            kept: self,
        })
    }
}

/// A window with the commands of a run, written but not in its place yet.
pub struct Entered {
    /// The new file, where one is to be put. It stands before the lock, so that where it is not put it goes while the lock is there.
    fresh: Option<Fresh>,
    kept: Kept,
    /// A line for each command that the window refused.
    notes: String,
}

impl Entered {
    /// Puts the window in its place, and tells how its file is left.
    pub fn put(self) -> Answered<String> {
        let Kept {
            file,
            is_new,
            locked,
            ..
        } = self.kept;
        let left = if is_new {
            "is not made"
        } else {
            "is left as it is"
        };
        let how = match (locked, self.fresh) {
            (Some(mut locked), Some(fresh)) => {
                locked.put(fresh)?;
                String::from(if is_new { "is made" } else { "is replaced" })
            }
            (Some(_), None) => String::from(left),
            (None, _) => format!("{left}, since this is a dry run"),
        };
        Ok(format!("{}{file} {how}.\n", self.notes))
    }
}
