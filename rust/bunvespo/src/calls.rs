//! The calls on records but for the conversions.

use crate::command::Command;
use crate::header::{Header, MOST_SUBJECTS, buffer_size};
use crate::list::commands;
use crate::raw;
use crate::refusal::Refusal;
use crate::refused::{CommandRefused, RunRefused};
use crate::right::Right;

/// The answer to a safety question.
#[derive(Clone, Copy, Debug, PartialEq, Eq, Hash)]
pub enum Safety {
    /// No list of commands by untrusted subjects, of any length, makes the right held.
    Safe,
    /// The list of so many commands at the buffer's start makes the right held; 0 where it is held already.
    Leaks(u64),
}

/// The refusal of an answer, if it has one. The archive gives no number above 19.
pub(crate) fn refusal_of(answer: raw::Answer) -> Option<Refusal> {
    if answer.refusal == 0 {
        return None;
    }
    let refusal = Refusal::from_number(answer.refusal);
    Some(refusal.expect("the archive refuses by 1 to 19"))
}

/// Whether a record is valid: false exactly where the other calls refuse it by 1 to 5.
///
/// ```
/// use bunvespo::{new_record, valid};
///
/// let mut record = new_record(2, 1)?;
/// assert!(valid(&record));
/// record[8] = 0; // now nobody exists, not even U
/// assert!(!valid(&record));
/// assert!(!valid(&[]));
/// # Ok::<(), bunvespo::Refusal>(())
/// ```
pub fn valid(record: &[u8]) -> bool {
    // SAFETY: the pointer and the length are those of a slice, which the call only reads.
    unsafe { raw::bunvespo_valid(record.as_ptr(), record.len()) == 1 }
}

/// The header of a valid record, or the refusal, 1 to 5, that it gets from every other call on a record but [`valid`].
///
/// ```
/// use bunvespo::{Refusal, check, new_record};
///
/// let mut record = new_record(2, 1)?;
/// assert_eq!(check(&record)?.n, 2);
/// record.push(0);
/// assert_eq!(check(&record), Err(Refusal::RecordLength));
/// # Ok::<(), Refusal>(())
/// ```
pub fn check(record: &[u8]) -> Result<Header, Refusal> {
    // Subject 0 and column 0 are in every record, so that this question is refused by 1 to 5 alone.
    held(record, 0, 0, Right::Own)?;
    Header::read(record)
}

/// Whether subject s holds a right over column o. A plain basic right is held by its starred bit too, and every basic right by own. Absent
/// names hold nothing.
/// Refusals: 1 to 5, 7.
///
/// ```
/// use bunvespo::{Refusal, Right, held, new_record};
///
/// let record = new_record(2, 1)?;
/// assert!(held(&record, 0, 0, Right::Control)?);
/// assert!(!held(&record, 1, 1, Right::Control)?);
/// assert_eq!(held(&record, 2, 0, Right::Own), Err(Refusal::Bounds));
/// # Ok::<(), Refusal>(())
/// ```
pub fn held(record: &[u8], s: u64, o: u64, right: Right) -> Result<bool, Refusal> {
    let (at, length) = (record.as_ptr(), record.len());
    // SAFETY: the pointer and the length are those of a slice, which the call only reads.
    let answer = unsafe { raw::bunvespo_held(at, length, s, o, right.code()) };
    match refusal_of(answer) {
        None => Ok(answer.value == 1),
        Some(refusal) => Err(refusal),
    }
}

/// One command on a record. If it is accepted, the record is the next state, and the answer is the number of owner links that the
/// walk followed, which is 0 but for code 3 over a subject. If it is refused (1 to 14, 19), no byte changes.
///
/// ```
/// use bunvespo::{Basic, Command, Refusal, Right, command, held, new_record};
///
/// let mut record = new_record(2, 1)?;
/// command(&mut record, Command::create_subject(0, 1))?;
/// command(&mut record, Command::create_object(1, 2))?;
/// command(&mut record, Command::grant(1, 0, 2, Basic::R3))?;
/// assert!(held(&record, 0, 2, Right::Plain(Basic::R3))?);
/// // Login 1 owns the log, and so holds every basic right over it.
/// assert!(held(&record, 1, 2, Right::Starred(Basic::R0))?);
///
/// let again = command(&mut record, Command::create_subject(0, 1)).unwrap_err();
/// assert_eq!((again.number(), again.refusal), (11, Refusal::NameExists));
/// // It has not the bit of any, so that there is nothing to delete.
/// let owner = command(&mut record, Command::delete(1, 1, 2, Basic::R0)).unwrap_err();
/// assert_eq!((owner.number(), owner.refusal), (19, Refusal::NotSet));
/// # Ok::<(), Box<dyn std::error::Error>>(())
/// ```
pub fn command(record: &mut [u8], command: Command) -> Result<u64, CommandRefused> {
    let Command { code, i, s, o, k } = command;
    let (at, length) = (record.as_mut_ptr(), record.len());
    // SAFETY: the pointer and the length are those of a slice that is lent to be written.
    let answer = unsafe { raw::bunvespo_command(at, length, code, i, s, o, k) };
    let links = answer.value;
    match refusal_of(answer) {
        None => Ok(links),
        Some(refusal) => Err(CommandRefused { refusal, links }),
    }
}

/// The commands of a list in turn, up to the first that is refused. The answer is their number. On a refusal (1 to 14, 16, 19) the
/// changes of the commands accepted before it stay.
///
/// ```
/// use bunvespo::{Command, encode, new_record, run};
///
/// let mut record = new_record(2, 1)?;
/// let list = encode(&[Command::create_subject(0, 1), Command::create_object(1, 2)])?;
/// assert_eq!(run(&mut record, &list)?, 2);
/// assert_eq!(run(&mut record, &[]).unwrap_err().number(), 16);
/// # Ok::<(), Box<dyn std::error::Error>>(())
/// ```
pub fn run(record: &mut [u8], list: &[u8]) -> Result<u64, RunRefused> {
    let (at, length) = (record.as_mut_ptr(), record.len());
    // SAFETY: the pointers and lengths are those of two slices, which can't overlap as the first is lent to be written.
    let answer = unsafe { raw::bunvespo_run(at, length, list.as_ptr(), list.len()) };
    let accepted = answer.value;
    match refusal_of(answer) {
        None => Ok(accepted),
        Some(refusal) => Err(RunRefused { refusal, accepted }),
    }
}

/// The first command of a list after which subject s holds a right over column o, if the commands are tried in turn, up to the first that
/// is refused. `Some(m)`: m is the least number such that the first m commands are accepted in turn and the right is held after them, 0
/// where it is held at the start. `None`: it is held after none of them. The commands are tried on `copy`, which has at least as many bytes
/// as the record; what stands in these after the call is left free. Every later byte of `copy`, and all of it on a refusal, stays as it is.
/// Refusals: 1 to 5, 7, 15, 16.
///
/// ```
/// use bunvespo::{Basic, Command, Refusal, Right, encode, first_held, new_record};
///
/// let record = new_record(3, 1)?;
/// let list = encode(&[
///     Command::create_subject(0, 1),
///     Command::create_object(1, 3),
///     Command::create_subject(0, 2),
///     Command::grant(1, 2, 3, Basic::R0),
/// ])?;
/// let mut copy = record.clone();
/// let read = Right::Plain(Basic::R0);
/// assert_eq!(first_held(&record, &list, 2, 3, read, &mut copy)?, Some(4));
/// assert_eq!(first_held(&record, &list, 1, 3, read, &mut copy)?, Some(2)); // who owns a log reads it
/// assert_eq!(first_held(&record, &list, 0, 0, Right::Control, &mut copy)?, Some(0));
/// assert_eq!(first_held(&record, &list, 0, 3, read, &mut copy)?, None);
/// assert_eq!(first_held(&record, &list, 0, 3, read, &mut []), Err(Refusal::BufferShort));
/// # Ok::<(), Box<dyn std::error::Error>>(())
/// ```
pub fn first_held(
    record: &[u8],
    list: &[u8],
    s: u64,
    o: u64,
    right: Right,
    copy: &mut [u8],
) -> Result<Option<u64>, Refusal> {
    let (at, length) = (record.as_ptr(), record.len());
    let (list_at, list_length) = (list.as_ptr(), list.len());
    let (copy_at, copy_length) = (copy.as_mut_ptr(), copy.len());
    let right = right.code();
    // SAFETY: the pointers and lengths are those of three slices, of which the third overlaps no other as it is lent to be written.
    let answer = unsafe {
        raw::bunvespo_first_held(
            at,
            length,
            list_at,
            list_length,
            s,
            o,
            right,
            copy_at,
            copy_length,
        )
    };
    match refusal_of(answer) {
        None => Ok(answer.value.checked_sub(1)),
        Some(refusal) => Err(refusal),
    }
}

/// The mask of trusted subjects that a safety question takes. It has 64 bits, more than a record has subjects, and so none for a
/// subject of 64 or more: that one gives [`Refusal::Bounds`], as the question itself does for one beyond its record.
///
/// ```
/// use bunvespo::{Refusal, trust_mask};
///
/// assert_eq!(trust_mask([0, 2]), Ok(5));
/// assert_eq!(trust_mask([]), Ok(0));
/// assert_eq!(trust_mask([64]), Err(Refusal::Bounds));
/// ```
pub fn trust_mask(subjects: impl IntoIterator<Item = u64>) -> Result<u64, Refusal> {
    let mut mask = 0;
    for s in subjects {
        let shift = u32::try_from(s).map_err(|_| Refusal::Bounds)?;
        mask |= 1u64.checked_shl(shift).ok_or(Refusal::Bounds)?;
    }
    Ok(mask)
}

/// The safety question: whether subject s can come to hold a right over column o if the subjects of the trust mask begin no
/// command. The list of a leak is written at the start of `out`; every other byte of it stays as it is. The buffer needs
/// [`buffer_size`](crate::buffer_size) bytes, also where the answer is safe. Refusals: 1 to 5, 7, 15.
///
/// ```
/// use bunvespo::{Basic, Command, MOST_SUBJECTS, Right, Safety, buffer_size, command, commands, new_record, safety, trust_mask};
///
/// // U makes subject 1, who makes log 2.
/// let mut record = new_record(2, 1)?;
/// command(&mut record, Command::create_subject(0, 1))?;
/// command(&mut record, Command::create_object(1, 2))?;
///
/// // Can U come to read log 2 (r0), if it may do all it can? It destroys subject 1 and inherits the log, and who owns a log reads it.
/// let mut out = [0; buffer_size(MOST_SUBJECTS)];
/// let answer = safety(&record, trust_mask([1])?, 0, 2, Right::Plain(Basic::R0), &mut out)?;
/// assert_eq!(answer, Safety::Leaks(1));
/// let list: Vec<Command> = commands(&out, 1).collect();
/// assert_eq!(list, [Command::destroy_subject(0, 1)]);
///
/// // Not if U is trusted and subject 1 is: then nobody is left to begin anything.
/// let answer = safety(&record, trust_mask([0, 1])?, 0, 2, Right::Plain(Basic::R0), &mut out)?;
/// assert_eq!(answer, Safety::Safe);
/// # Ok::<(), Box<dyn std::error::Error>>(())
/// ```
pub fn safety(
    record: &[u8],
    trust: u64,
    s: u64,
    o: u64,
    right: Right,
    out: &mut [u8],
) -> Result<Safety, Refusal> {
    let (at, length) = (record.as_ptr(), record.len());
    let (out_at, out_length) = (out.as_mut_ptr(), out.len());
    let right = right.code();
    // SAFETY: the pointers and lengths are those of two slices, which can't overlap as the second is lent to be written.
    let answer =
        unsafe { raw::bunvespo_safety(at, length, trust, s, o, right, out_at, out_length) };
    match (refusal_of(answer), answer.value) {
        (Some(refusal), _) => Err(refusal),
        (None, 0) => Ok(Safety::Safe),
        (None, value) => Ok(Safety::Leaks(value - 1)),
    }
}

/// The safety question with a buffer of its own: `None` for safe, or the commands of a list that leaks, none of them where the right
/// is held already. Refusals: 1 to 5, 7.
///
/// ```
/// use bunvespo::{Command, Right, new_record, witness};
///
/// let record = new_record(2, 1)?;
/// let list = witness(&record, 0, 1, 2, Right::Own)?;
/// let expected = [Command::create_object(0, 2), Command::create_subject(0, 1), Command::grant_own(0, 1, 2)];
/// assert_eq!(list, Some(expected.to_vec()));
/// assert_eq!(witness(&record, 0, 1, 1, Right::Own)?, None); // nobody ever owns itself
/// # Ok::<(), bunvespo::Refusal>(())
/// ```
pub fn witness(
    record: &[u8],
    trust: u64,
    s: u64,
    o: u64,
    right: Right,
) -> Result<Option<Vec<Command>>, Refusal> {
    let mut out = [0; buffer_size(MOST_SUBJECTS)];
    Ok(match safety(record, trust, s, o, right, &mut out)? {
        Safety::Safe => None,
        Safety::Leaks(count) => Some(commands(&out, count).collect()),
    })
}
