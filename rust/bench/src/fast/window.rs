//! The window of late refusals, with the bytes that the header describes. Both counts that an entry may change are written
//! whatever the entries are, so that nothing depends on what a processor guesses. Bytes of another length stay as they are.

/// The subject numbers, the bytes of the entries, and those of a window.
const NUMBERS: usize = 64;
const ENTRIES: usize = 256;
const SIZE: usize = ENTRIES + 2 * NUMBERS + 1;

/// The bytes of a window.
type Window = [u8; SIZE];

/// Makes bytes an empty window.
pub fn window_empty(window: &mut [u8]) {
    if let Ok(window) = <&mut Window>::try_from(window) {
        window.fill(0);
    }
}

/// The count of a number that is taken modulo 64.
#[inline(always)]
fn count(window: &Window, number: u8) -> u16 {
    let at = ENTRIES + 2 * (number as usize % NUMBERS);
    u16::from_be_bytes([window[at], window[at + 1]])
}

/// Makes the count of a number another one.
#[inline(always)]
fn set_count(window: &mut Window, number: u8, count: u16) {
    let at = ENTRIES + 2 * (number as usize % NUMBERS);
    [window[at], window[at + 1]] = count.to_be_bytes();
}

/// Puts one more entry into a window: the refusal, and 0.
pub fn window_put(window: &mut [u8], initiator: u64, outcome: u64) -> (u64, u64) {
    if initiator >= NUMBERS as u64 {
        return (17, 0);
    }
    let Ok(window) = <&mut Window>::try_from(window) else {
        return (0, 0);
    };
    let (number, refused) = (initiator as u8, u8::from(outcome != 0));
    let place = window[SIZE - 1];
    let leaving = window[place as usize];
    window[place as usize] = (number + 1) * refused;
    window[SIZE - 1] = place.wrapping_add(1);
    let left = leaving.wrapping_sub(1);
    let lower = count(window, left).wrapping_sub(u16::from(leaving != 0));
    set_count(window, left, lower);
    let higher = count(window, number).wrapping_add(u16::from(refused));
    set_count(window, number, higher);
    (0, 0)
}

/// The count of a number in a window: the refusal, and the count.
pub fn window_count(window: &[u8], number: u64) -> (u64, u64) {
    if number >= NUMBERS as u64 {
        return (17, 0);
    }
    match <&Window>::try_from(window) {
        Ok(window) => (0, u64::from(count(window, number as u8))),
        Err(_) => (0, 0),
    }
}
