//! The calls of the library through its C interface. Each buffer lent is guarded; what a call must not change
//! is compared here, and an error in words says what was changed.

use bunvespo::raw;
use reference::Answer;

use crate::guarded::Guarded;

/// What a call answered, and the bytes that it may have written, as they are after it.
#[derive(PartialEq, Eq)]
pub struct Outcome {
    pub answer: Answer,
    pub written: Vec<u8>,
}

fn answer(from: raw::Answer) -> Answer {
    Answer {
        refusal: from.refusal,
        value: from.value,
    }
}

/// Whether the record is valid. An empty slice is lent as NULL if `null` says so; likewise below.
pub fn valid(record: &[u8], null: bool) -> Result<u64, String> {
    let mut lent = Guarded::holding(record);
    // SAFETY: the pointer and the length are those of the lent buffer, or NULL and 0, which the header allows.
    let got = unsafe { raw::bunvespo_valid(lent.pointer(null), record.len()) };
    lent.unchanged(record, "record")?;
    Ok(got)
}

/// Whether a right is held.
pub fn held(record: &[u8], [s, o, right]: [u64; 3], null: bool) -> Result<Answer, String> {
    let mut lent = Guarded::holding(record);
    // SAFETY: as in `valid`.
    let got = unsafe { raw::bunvespo_held(lent.pointer(null), record.len(), s, o, right) };
    lent.unchanged(record, "record")?;
    Ok(answer(got))
}

/// One command; the record after it is what was written.
pub fn command(record: &[u8], fields: [u64; 5], null: bool) -> Result<Outcome, String> {
    let mut lent = Guarded::holding(record);
    let [code, i, s, o, k] = fields;
    // SAFETY: as in `valid`; nothing else refers to the lent buffer.
    let got = unsafe { raw::bunvespo_command(lent.pointer(null), record.len(), code, i, s, o, k) };
    Ok(Outcome {
        answer: answer(got),
        written: lent.content()?.to_vec(),
    })
}

/// A list run; the record after it is what was written.
pub fn run(record: &[u8], list: &[u8], null: bool) -> Result<Outcome, String> {
    let mut lent = Guarded::holding(record);
    let mut lent_list = Guarded::holding(list);
    // SAFETY: as in `valid`, for both buffers, which do not overlap.
    let got = unsafe {
        let record_pointer = lent.pointer(null);
        raw::bunvespo_run(
            record_pointer,
            record.len(),
            lent_list.pointer(null),
            list.len(),
        )
    };
    lent_list.unchanged(list, "list")?;
    Ok(Outcome {
        answer: answer(got),
        written: lent.content()?.to_vec(),
    })
}

/// A safety question with the trust mask, s, o and the right; the buffer after it is what was written.
pub fn safety(
    record: &[u8],
    [trust, s, o, right]: [u64; 4],
    buffer: &[u8],
    null: bool,
) -> Result<Outcome, String> {
    let mut lent = Guarded::holding(record);
    let mut lent_buffer = Guarded::holding(buffer);
    // SAFETY: as in `valid`, for both buffers, which do not overlap.
    let got = unsafe {
        let record_pointer = lent.pointer(null);
        let out = lent_buffer.pointer(null);
        let length = record.len();
        raw::bunvespo_safety(
            record_pointer,
            length,
            trust,
            s,
            o,
            right,
            out,
            buffer.len(),
        )
    };
    lent.unchanged(record, "record")?;
    Ok(Outcome {
        answer: answer(got),
        written: lent_buffer.content()?.to_vec(),
    })
}

/// After how many commands of a list a right is first held. Record and list have to be unchanged; so has the copy on a refusal, and
/// else from the record's length on: what stands before that is left free.
pub fn first_held(
    record: &[u8],
    list: &[u8],
    [s, o, right]: [u64; 3],
    copy: &[u8],
    null: bool,
) -> Result<Answer, String> {
    let mut lent = Guarded::holding(record);
    let mut lent_list = Guarded::holding(list);
    let mut lent_copy = Guarded::holding(copy);
    // SAFETY: as in `valid`, for the three buffers, which do not overlap.
    let got = unsafe {
        raw::bunvespo_first_held(
            lent.pointer(null),
            record.len(),
            lent_list.pointer(null),
            list.len(),
            s,
            o,
            right,
            lent_copy.pointer(null),
            copy.len(),
        )
    };
    lent.unchanged(record, "record")?;
    lent_list.unchanged(list, "list")?;
    let free = if got.refusal == 0 { record.len() } else { 0 };
    if lent_copy.content()?.get(free..) != copy.get(free..) {
        return Err(format!("the copy was changed from byte {free} on"));
    }
    Ok(answer(got))
}

/// A conversion to a version; the output after it is what was written.
pub fn convert(record: &[u8], wanted: u8, output: &[u8], null: bool) -> Result<Outcome, String> {
    let call = match wanted {
        1 => raw::bunvespo_to_version_1,
        _ => raw::bunvespo_to_version_2,
    };
    let mut lent = Guarded::holding(record);
    let mut lent_output = Guarded::holding(output);
    // SAFETY: as in `valid`, for both buffers, which do not overlap.
    let got = unsafe {
        let record_pointer = lent.pointer(null);
        let out = lent_output.pointer(null);
        call(record_pointer, record.len(), out, output.len())
    };
    lent.unchanged(record, "record")?;
    Ok(Outcome {
        answer: answer(got),
        written: lent_output.content()?.to_vec(),
    })
}

/// Makes bytes an empty window; its bytes after that.
pub fn window_empty(window: &[u8], null: bool) -> Result<Vec<u8>, String> {
    let mut lent = Guarded::holding(window);
    // SAFETY: as in `command`.
    unsafe { raw::bunvespo_window_empty(lent.pointer(null), window.len()) };
    Ok(lent.content()?.to_vec())
}

/// One more entry; the window after it is what was written.
pub fn window_put(
    window: &[u8],
    [initiator, outcome]: [u64; 2],
    null: bool,
) -> Result<Outcome, String> {
    let mut lent = Guarded::holding(window);
    let length = window.len();
    // SAFETY: as in `command`.
    let got = unsafe { raw::bunvespo_window_put(lent.pointer(null), length, initiator, outcome) };
    Ok(Outcome {
        answer: answer(got),
        written: lent.content()?.to_vec(),
    })
}

/// The count of a number.
pub fn window_count(window: &[u8], number: u64, null: bool) -> Result<Answer, String> {
    let mut lent = Guarded::holding(window);
    // SAFETY: as in `valid`.
    let got = unsafe { raw::bunvespo_window_count(lent.pointer(null), window.len(), number) };
    lent.unchanged(window, "window")?;
    Ok(answer(got))
}
