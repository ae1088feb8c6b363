//! The versions of a record, and a record in another one.

use crate::library::{MOST_RECORD_BYTES, Refusal, to_version_1, to_version_2};

/// The version that a record is to have.
#[derive(Clone, Copy, Debug, PartialEq, Eq)]
pub enum Version {
    One,
    Two,
}

impl Version {
    /// The version that a word is.
    pub fn parse(word: &str) -> Result<Version, String> {
        match word {
            "1" => Ok(Version::One),
            "2" => Ok(Version::Two),
            _ => Err(format!("a record has version 1 or 2, and not '{word}'")),
        }
    }

    /// The number, which a record has as its first byte.
    pub fn number(self) -> u8 {
        match self {
            Version::One => 1,
            Version::Two => 2,
        }
    }

    /// A record in this version.
    pub fn convert(self, record: &[u8]) -> Result<Vec<u8>, Refusal> {
        let mut out = vec![0; MOST_RECORD_BYTES];
        let length = match self {
            Version::One => to_version_1(record, &mut out)?,
            Version::Two => to_version_2(record, &mut out)?,
        };
        out.truncate(length);
        Ok(out)
    }
}
