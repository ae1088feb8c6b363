//! The window of late refusals, which counts them for each subject number.

use crate::calls::refusal_of;
use crate::raw;
use crate::refusal::Refusal;

/// The subject numbers that have a count: 0 to 63.
pub const WINDOW_NUMBERS: u64 = 64;

/// The entries that are counted.
pub const WINDOW_ENTRIES: usize = 256;

/// The bytes of a window.
pub const WINDOW_SIZE: usize = 385;

/// Counts of refused commands among the 256 newest, for each of the subject numbers 0 to 63. Entries are put in one by one, accepted
/// commands as well. An entry that `put` refuses is none.
///
/// Its bytes, whose layout `include/bunvespo.h` describes, can be kept in a file and made a window again. Bytes that were made
/// in any other way are taken too; nothing is promised of their counts.
///
/// ```
/// use bunvespo::{Command, Refusal, Window, command, new_record};
///
/// let mut record = new_record(2, 1)?;
/// let mut window = Window::new();
/// for begun in [Command::create_subject(0, 1), Command::create_subject(0, 1), Command::create_object(0, 2)] {
///     let outcome = command(&mut record, begun).map_or_else(|refused| refused.number(), |_| 0);
///     window.put(begun.i, outcome.into())?;
/// }
/// assert_eq!(window.count(0)?, 1); // the second was refused by 11
/// assert_eq!(window.count(64), Err(Refusal::WindowNumber));
///
/// let kept: Vec<u8> = window.as_bytes().to_vec();
/// let again = Window::from(<[u8; bunvespo::WINDOW_SIZE]>::try_from(kept).unwrap());
/// assert_eq!(again, window);
/// # Ok::<(), Refusal>(())
/// ```
#[derive(Clone, Copy, Debug, PartialEq, Eq, Hash)]
pub struct Window {
    bytes: [u8; WINDOW_SIZE],
}

impl Window {
    /// A window without entries.
    pub fn new() -> Window {
        let mut bytes = [0; WINDOW_SIZE];
        // SAFETY: the pointer and the length are those of an array that nothing else refers to.
        unsafe { raw::bunvespo_window_empty(bytes.as_mut_ptr(), bytes.len()) };
        Window { bytes }
    }

    /// One more entry: the initiator of a command, and its outcome, which is 0 where it was accepted and else, of any number, a
    /// refusal. Refusal: 17 for an initiator of 64 or more; then the window is as it was.
    ///
    /// ```
    /// use bunvespo::{Refusal, Window};
    ///
    /// let mut window = Window::new();
    /// window.put(63, 12)?;
    /// window.put(63, 0)?;
    /// assert_eq!(window.put(64, 12), Err(Refusal::WindowNumber));
    /// assert_eq!(window.count(63)?, 1);
    /// # Ok::<(), Refusal>(())
    /// ```
    pub fn put(&mut self, initiator: u64, outcome: u64) -> Result<(), Refusal> {
        let (at, length) = (self.bytes.as_mut_ptr(), self.bytes.len());
        // SAFETY: the pointer and the length are those of an array that is lent to be written.
        let answer = unsafe { raw::bunvespo_window_put(at, length, initiator, outcome) };
        refusal_of(answer).map_or(Ok(()), Err)
    }

    /// How many of the last 256 entries, or of all while there are fewer, are refusals of commands begun by a subject number.
    /// Refusal: 17 for a number of 64 or more.
    ///
    /// ```
    /// use bunvespo::{Refusal, Window};
    ///
    /// let mut window = Window::new();
    /// for _ in 0..300 {
    ///     window.put(7, 12)?;
    /// }
    /// assert_eq!(window.count(7)?, 256);
    /// window.put(8, 0)?; // an accepted command pushes the oldest entry out as well
    /// assert_eq!(window.count(7)?, 255);
    /// # Ok::<(), Refusal>(())
    /// ```
    pub fn count(&self, number: u64) -> Result<u64, Refusal> {
        let (at, length) = (self.bytes.as_ptr(), self.bytes.len());
        // SAFETY: the pointer and the length are those of an array, which the call only reads.
        let answer = unsafe { raw::bunvespo_window_count(at, length, number) };
        refusal_of(answer).map_or(Ok(answer.value), Err)
    }

    /// The window's bytes, to be kept in a file.
    pub fn as_bytes(&self) -> &[u8; WINDOW_SIZE] {
        &self.bytes
    }
}

impl Default for Window {
    fn default() -> Window {
        Window::new()
    }
}

impl From<[u8; WINDOW_SIZE]> for Window {
    fn from(bytes: [u8; WINDOW_SIZE]) -> Window {
        Window { bytes }
    }
}
