//! The first seven bytes of a record, where its cells stand, and the record of a new station.

use crate::refusal::Refusal;
use crate::right::Right;

/// The most subject names that a record may have.
pub const MOST_SUBJECTS: u8 = 40;

/// The most plain names that a record may have.
pub const MOST_PLAIN: u8 = 120;

/// The most bytes that a record of either version may have. Who reads one from a file needs at most one byte more, to see that it is
/// too long. An output of so many bytes is long enough for [`to_version_1`](crate::to_version_1) and
/// [`to_version_2`](crate::to_version_2) of every record.
///
/// ```
/// use bunvespo::{MOST_RECORD_BYTES, new_record, to_version_2};
///
/// let largest = new_record(40, 120)?;
/// let mut out = [0; MOST_RECORD_BYTES];
/// assert_eq!(to_version_2(&largest, &mut out)?, MOST_RECORD_BYTES);
/// # Ok::<(), bunvespo::Refusal>(())
/// ```
pub const MOST_RECORD_BYTES: usize = record_length(2, MOST_SUBJECTS, MOST_PLAIN);

/// The bytes of a cell in a version.
const fn cell_bytes(version: u8) -> usize {
    if version == 1 { 2 } else { 4 }
}

/// The bytes of a record of a version with n subject names and p plain names.
const fn record_length(version: u8, n: u8, p: u8) -> usize {
    Header::SIZE + cell_bytes(version) * n as usize * (n as usize + p as usize)
}

/// The bytes of buffer that a safety question on a record of n subject names asks for.
///
/// ```
/// use bunvespo::{MOST_SUBJECTS, buffer_size};
///
/// const ENOUGH_FOR_ANY_RECORD: usize = buffer_size(MOST_SUBJECTS);
/// assert_eq!(ENOUGH_FOR_ANY_RECORD, 257);
/// ```
pub const fn buffer_size(n: u8) -> usize {
    5 + 6 * (n as usize + 2)
}

/// What the first seven bytes of a record say. It is read, not tested: whether the record is valid is for [`valid`](crate::valid).
///
/// ```
/// use bunvespo::{Header, new_record};
///
/// let record = new_record(3, 1)?;
/// let header = Header::read(&record)?;
/// assert_eq!((header.version, header.length, header.n, header.p), (1, 26, 3, 1));
/// assert_eq!(header.columns(), 4);
/// assert_eq!(header.expected_length(), record.len());
/// # Ok::<(), bunvespo::Refusal>(())
/// ```
#[derive(Clone, Copy, Debug, PartialEq, Eq, Hash)]
pub struct Header {
    /// The version; the library knows 1 and 2.
    pub version: u8,
    /// L as it stands in the record, which should be the number of its bytes less 5.
    pub length: u32,
    /// n, the number of subject names, existing or not.
    pub n: u8,
    /// p, the number of plain names, existing or not.
    pub p: u8,
}

impl Header {
    /// The bytes that a header takes.
    pub const SIZE: usize = 7;

    /// The header of any bytes. The one error is [`Refusal::RecordShort`], where there are fewer than seven; no number is tested.
    ///
    /// ```
    /// use bunvespo::{Header, Refusal};
    ///
    /// assert_eq!(Header::read(&[1, 0, 0, 0, 4, 1]), Err(Refusal::RecordShort));
    /// let odd = Header::read(&[255; 7])?;
    /// assert_eq!((odd.version, odd.length, odd.n), (255, u32::MAX, 255));
    /// # Ok::<(), Refusal>(())
    /// ```
    pub fn read(record: &[u8]) -> Result<Header, Refusal> {
        match *record {
            [version, a, b, c, d, n, p, ..] => Ok(Header {
                version,
                length: u32::from_be_bytes([a, b, c, d]),
                n,
                p,
            }),
            _ => Err(Refusal::RecordShort),
        }
    }

    /// The number of columns, n + p.
    pub const fn columns(self) -> u16 {
        self.n as u16 + self.p as u16
    }

    /// The bytes of a cell: 2 at version 1 and 4 at version 2. Here and below a version that the library
    /// does not know is taken for version 2.
    ///
    /// ```
    /// use bunvespo::{Basic, Header, Right};
    ///
    /// let [one, two] = [1, 2].map(|version| Header { version, length: 26, n: 3, p: 1 });
    /// assert_eq!((one.cell_bytes(), two.cell_bytes()), (2, 4));
    /// assert_eq!((one.basic_rights(), two.basic_rights()), (7, 15));
    /// assert_eq!((one.expected_length(), two.expected_length()), (31, 55));
    /// assert_eq!(one.rights().last(), Some(&Right::Starred(Basic::R6)));
    /// assert_eq!(two.rights(), Right::ALL);
    /// ```
    pub const fn cell_bytes(self) -> usize {
        cell_bytes(self.version)
    }

    /// How many basic rights a record of this version has: 7 at version 1 and 15 at version 2. A k of so many or more is refused by 7.
    pub const fn basic_rights(self) -> u64 {
        self.rights().len() as u64 / 2 - 1
    }

    /// The rights that a record of this version has, in the order of the codes: one for each bit of a cell.
    pub const fn rights(self) -> &'static [Right] {
        Right::ALL.split_at(8 * self.cell_bytes()).0
    }

    /// The number of bytes that a record of this version with this n and p has, header and cells. L plays no part.
    pub const fn expected_length(self) -> usize {
        record_length(self.version, self.n, self.p)
    }

    /// The cell of row s and column o in a record with this header: bit c is set where s has the right of code c over o.
    /// `None` where s or o is beyond n and p, or where the bytes end before the cell.
    ///
    /// ```
    /// use bunvespo::{Header, Right, new_record};
    ///
    /// let record = new_record(2, 1)?;
    /// let header = Header::read(&record)?;
    /// let cell = header.cell(&record, 0, 0).unwrap();
    /// assert!(Right::Control.in_cell(cell));
    /// assert_eq!(header.cell(&record, 1, 2), Some(0));
    /// assert_eq!(header.cell(&record, 1, 3), None);
    /// assert_eq!(header.cell(&record, u64::MAX, u64::MAX), None);
    /// # Ok::<(), bunvespo::Refusal>(())
    /// ```
    pub fn cell(self, record: &[u8], s: u64, o: u64) -> Option<u32> {
        if s >= u64::from(self.n) || o >= u64::from(self.columns()) {
            return None;
        }
        let place = s * u64::from(self.columns()) + o;
        let at = Header::SIZE + self.cell_bytes() * usize::try_from(place).ok()?;
        let bytes = record.get(at..at + self.cell_bytes())?;
        let with_byte = |cell: u32, byte: &u8| cell << 8 | u32::from(*byte);
        Some(bytes.iter().fold(0, with_byte))
    }
}

/// The record of a new station with n subject names and p plain names, in which subject 0 alone exists. It is of version 1;
/// [`to_version_2`](crate::to_version_2) makes it one of version 2. Where n is not 1 to [`MOST_SUBJECTS`] or p is above [`MOST_PLAIN`]
/// the error is [`Refusal::Counts`].
///
/// ```
/// use bunvespo::{Refusal, new_record, valid};
///
/// assert!(valid(&new_record(40, 120)?));
/// assert_eq!(new_record(0, 0), Err(Refusal::Counts));
/// assert_eq!(new_record(41, 0), Err(Refusal::Counts));
/// assert_eq!(new_record(1, u64::MAX), Err(Refusal::Counts));
/// # Ok::<(), Refusal>(())
/// ```
pub fn new_record(n: u64, p: u64) -> Result<Vec<u8>, Refusal> {
    let count = |number: u64, most: u8| u8::try_from(number).ok().filter(|&count| count <= most);
    let n = count(n, MOST_SUBJECTS).filter(|&n| n > 0);
    let (Some(n), Some(p)) = (n, count(p, MOST_PLAIN)) else {
        return Err(Refusal::Counts);
    };
    let mut record = vec![0; record_length(1, n, p)];
    let following = (record.len() - 5) as u32;
    record[0] = 1;
    record[1..5].copy_from_slice(&following.to_be_bytes());
    record[5..7].copy_from_slice(&[n, p]);
    record[8] = 2; // U controls itself
    Ok(record)
}
