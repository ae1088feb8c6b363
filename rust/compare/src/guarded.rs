//! Buffers with guard bytes on both sides, so that a write outside them is seen.

use std::ptr;

const GUARD: usize = 32;

/// A lent buffer between guard bytes.
pub struct Guarded {
    bytes: Vec<u8>,
    start: usize,
    length: usize,
}

/// The guard byte at a place; neighbours differ.
fn guard_byte(place: usize) -> u8 {
    (place as u8).wrapping_mul(37) ^ 0x5A
}

impl Guarded {
    /// A buffer with this content. Its start is moved by up to six bytes, as its length and last byte say, so that
    /// all alignments occur, also for contents of one length.
    pub fn holding(content: &[u8]) -> Guarded {
        let last = content.last().map_or(0, |byte| usize::from(*byte));
        let (start, length) = (GUARD + (content.len() + last) % 7, content.len());
        let end = start + length;
        let mut bytes: Vec<u8> = (0..start).map(guard_byte).collect();
        bytes.extend_from_slice(content);
        bytes.extend((end..end + GUARD).map(guard_byte));
        Guarded {
            bytes,
            start,
            length,
        }
    }

    /// The pointer to lend. An empty buffer is lent as NULL or not, as the caller says.
    pub fn pointer(&mut self, null_if_empty: bool) -> *mut u8 {
        if null_if_empty && self.length == 0 {
            ptr::null_mut()
        } else {
            self.bytes[self.start..].as_mut_ptr()
        }
    }

    /// The content, if no guard byte was changed.
    pub fn content(&self) -> Result<&[u8], String> {
        let end = self.start + self.length;
        let guards = (0..self.start).chain(end..self.bytes.len());
        match guards
            .into_iter()
            .find(|g| self.bytes[*g] != guard_byte(*g))
        {
            Some(at) => Err(format!(
                "wrote outside a buffer of {} bytes, at offset {}",
                self.length,
                at as i64 - self.start as i64
            )),
            None => Ok(&self.bytes[self.start..end]),
        }
    }

    /// Whether the content is still this, and no guard byte was changed.
    pub fn unchanged(&self, content: &[u8], what: &str) -> Result<(), String> {
        if self.content()? == content {
            Ok(())
        } else {
            Err(format!("the {what} was changed"))
        }
    }
}
