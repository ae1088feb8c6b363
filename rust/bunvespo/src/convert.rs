//! The two conversions, from each version of a record to the other.

use crate::calls::refusal_of;
use crate::raw;
use crate::refusal::Refusal;

/// One of the two exports, which take the same arguments.
type Export = unsafe extern "C" fn(*const u8, usize, *mut u8, usize) -> raw::Answer;

/// The record as an export converts it, at the start of `out`; the number of its bytes.
fn converted(export: Export, record: &[u8], out: &mut [u8]) -> Result<usize, Refusal> {
    let (out_at, out_length) = (out.as_mut_ptr(), out.len());
    // SAFETY: the pointers and lengths are those of two slices, which can't overlap as the second is lent to be written.
    let answer = unsafe { export(record.as_ptr(), record.len(), out_at, out_length) };
    // The new record stands in the output, so that its bytes are a number of a slice's length.
    refusal_of(answer).map_or(Ok(answer.value as usize), Err)
}

/// The record in version 1, written at the start of `out`: the same n, p and rights in cells of two bytes. The answer is the number of
/// its bytes. A record that is of version 1 already is copied. Every later byte of `out`, and all of it on a refusal, stays as it is.
///
/// Refusals, tested in this order: 1 to 5; 18 where a basic right above 6 is set in some cell; 15 where `out` is shorter than the new
/// record. [`MOST_RECORD_BYTES`](crate::MOST_RECORD_BYTES) are always enough.
///
/// ```
/// use bunvespo::{Basic, Command, MOST_RECORD_BYTES, Refusal, command, new_record, to_version_1, to_version_2};
///
/// let record = new_record(2, 1)?;
/// let mut out = [0; MOST_RECORD_BYTES];
/// let length = to_version_2(&record, &mut out)?;
/// let mut wide = out[..length].to_vec();
/// let length = to_version_1(&wide, &mut out)?;
/// assert_eq!(out[..length], record);
///
/// // Version 1 has no room for basic right 7, whatever the output.
/// command(&mut wide, Command::create_object(0, 2))?;
/// command(&mut wide, Command::grant(0, 0, 2, Basic::R7))?;
/// assert_eq!(to_version_1(&wide, &mut out), Err(Refusal::HighRight));
/// assert_eq!(to_version_1(&wide, &mut []), Err(Refusal::HighRight));
/// # Ok::<(), Box<dyn std::error::Error>>(())
/// ```
pub fn to_version_1(record: &[u8], out: &mut [u8]) -> Result<usize, Refusal> {
    converted(raw::bunvespo_to_version_1, record, out)
}

/// The record in version 2, written at the start of `out`: the same n, p and rights in cells of four bytes. The answer is the number of
/// its bytes. A record that is of version 2 already is copied. Every later byte of `out`, and all of it on a refusal, stays as it is.
///
/// Refusals, tested in this order: 1 to 5; 15 where `out` is shorter than the new record.
/// [`MOST_RECORD_BYTES`](crate::MOST_RECORD_BYTES) are always enough.
///
/// ```
/// use bunvespo::{Header, Refusal, new_record, to_version_2, valid};
///
/// let record = new_record(1, 0)?;
/// let mut out = [0xEE; 12];
/// assert_eq!(to_version_2(&record, &mut out)?, 11);
/// assert_eq!(out, [2, 0, 0, 0, 6, 1, 0, 0, 0, 0, 2, 0xEE]);
/// assert!(valid(&out[..11]));
/// assert_eq!(Header::read(&out)?.basic_rights(), 15);
/// assert_eq!(to_version_2(&record, &mut out[..10]), Err(Refusal::BufferShort));
/// # Ok::<(), Refusal>(())
/// ```
pub fn to_version_2(record: &[u8], out: &mut [u8]) -> Result<usize, Refusal> {
    converted(raw::bunvespo_to_version_2, record, out)
}
