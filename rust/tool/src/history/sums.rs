//! The sums of a history: CRC-32 for the head of an entry, CRC-64/XZ for the whole of it. They tell damage, and no forgery.

/// The reversed polynomials.
const POLYNOMIAL_32: u64 = 0xedb8_8320;
const POLYNOMIAL_64: u64 = 0xc96c_5795_d787_0f42;

/// What each byte makes of a sum that is 0, for so many bytes at once: row r is for a byte that r others follow.
const fn tables<const ROWS: usize>(polynomial: u64) -> [[u64; 256]; ROWS] {
    let mut tables = [[0; 256]; ROWS];
    let mut byte = 0;
    while byte < 256 {
        let mut sum = byte as u64;
        let mut bit = 0;
        while bit < 8 {
            sum = (sum >> 1) ^ (polynomial & (sum & 1).wrapping_neg());
            bit += 1;
        }
        tables[0][byte] = sum;
        byte += 1;
    }
    let mut row = 1;
    while row < ROWS {
        let mut byte = 0;
        while byte < 256 {
            let before = tables[row - 1][byte];
            tables[row][byte] = (before >> 8) ^ tables[0][(before & 255) as usize];
            byte += 1;
        }
        row += 1;
    }
    tables
}

static TABLE_32: [[u64; 256]; 1] = tables(POLYNOMIAL_32);
static TABLES_64: [[u64; 256]; 8] = tables(POLYNOMIAL_64);

/// One more byte of a sum.
fn with_byte(table: &[u64; 256], sum: u64, byte: u8) -> u64 {
    (sum >> 8) ^ table[((sum ^ u64::from(byte)) & 255) as usize]
}

/// The CRC-32 of bytes.
pub fn crc_32(bytes: &[u8]) -> u32 {
    let begun = u64::from(u32::MAX);
    let add = |sum, byte: &u8| with_byte(&TABLE_32[0], sum, *byte);
    !(bytes.iter().fold(begun, add) as u32)
}

/// A CRC-64/XZ of bytes that are given piece by piece.
#[derive(Clone, Copy)]
pub struct Crc64(u64);

impl Crc64 {
    pub fn new() -> Crc64 {
        Crc64(u64::MAX)
    }

    /// With more bytes, of which eight are taken at once.
    pub fn with(self, bytes: &[u8]) -> Crc64 {
        let (eights, rest) = bytes.as_chunks::<8>();
        let mut sum = self.0;
        for eight in eights {
            let mixed = (sum ^ u64::from_le_bytes(*eight)).to_le_bytes();
            let rows = TABLES_64.iter().rev().zip(mixed);
            sum = rows.fold(0, |sum, (row, byte)| sum ^ row[usize::from(byte)]);
        }
        let add = |sum, byte: &u8| with_byte(&TABLES_64[0], sum, *byte);
        Crc64(rest.iter().fold(sum, add))
    }

    pub fn sum(self) -> u64 {
        !self.0
    }
}
