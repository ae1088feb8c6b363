//! The form of a list of commands.

/// The bytes of a command: 5, and the five fields.
const COMMAND: usize = 6;

/// The most bytes after the head of a list.
const MOST: usize = 60_000;

/// The bytes of so many words of 64 bits are whole commands.
const WORDS: usize = 6;

/// In the words of whole commands a byte at the first place of each command.
const fn first_bytes(byte: u64) -> [u64; WORDS] {
    let mut words = [0; WORDS];
    let mut at = 0;
    while at < 8 * WORDS {
        words[at / 8] |= byte << (8 * (at % 8));
        at += COMMAND;
    }
    words
}

/// The commands of a list of the right form.
pub fn commands(list: &[u8]) -> Option<&[[u8; COMMAND]]> {
    let (head, body) = list.split_at_checked(5)?;
    let length = u32::from_be_bytes([head[1], head[2], head[3], head[4]]) as usize;
    let whole = length.is_multiple_of(COMMAND);
    if head[0] != 1 || length != body.len() || length > MOST || !whole {
        return None;
    }
    let (firsts, fives) = const { (first_bytes(255), first_bytes(5)) };
    let (parts, rest) = body.as_chunks::<{ 8 * WORDS }>();
    let mut wrong = [0; WORDS];
    for part in parts {
        for (at, word) in part.as_chunks().0.iter().enumerate() {
            wrong[at] |= (u64::from_le_bytes(*word) ^ fives[at]) & firsts[at];
        }
    }
    let few = rest.as_chunks::<COMMAND>().0;
    let fit = wrong == [0; WORDS] && few.iter().all(|command| command[0] == 5);
    fit.then_some(body.as_chunks().0)
}
