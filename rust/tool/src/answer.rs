//! What a command answers: a text or bytes for the standard output, and how the program exits.

/// How the program exits. Where there is no answer it is 2.
#[derive(Clone, Copy, Debug, PartialEq, Eq)]
pub enum Exit {
    /// 0: answered, safe, held, valid, no difference, all accepted.
    Yes,
    /// 1: leaks, not held, not valid, differs, refused.
    No,
}

/// An answer: bytes for the standard output, and the exit.
pub struct Answer {
    pub out: Vec<u8>,
    pub exit: Exit,
}

impl Answer {
    /// A text, and the exit of yes or no.
    pub fn new(text: String, yes: bool) -> Answer {
        Answer {
            out: text.into_bytes(),
            exit: if yes { Exit::Yes } else { Exit::No },
        }
    }

    /// The bytes of a record.
    pub fn bytes(out: Vec<u8>) -> Answer {
        let exit = Exit::Yes;
        Answer { out, exit }
    }
}

/// How many lines are printed of those that might be thousands.
pub const MOST_LINES: usize = 20;

/// The first of some lines, each set in, and how many more there are.
pub fn first_lines(lines: &[String]) -> String {
    let first = lines.iter().take(MOST_LINES);
    let mut text: String = first.map(|line| format!("  {line}\n")).collect();
    if lines.len() > MOST_LINES {
        text.push_str(&format!("  and {} more\n", lines.len() - MOST_LINES));
    }
    text
}
