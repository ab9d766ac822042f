//! Refusals and their words.

use crate::raw;
use std::fmt;

/// A refusal of the table: which row, in which part, at which place.
///
/// ```
/// let refusal = seg2::Refusal { number: 16, part: 3, place: 1234 };
/// assert_eq!(
///     refusal.to_string(),
///     "refused (16) in trace 3 at byte 1234: a forbidden character in a keyword or value, or an empty keyword"
/// );
/// ```
#[derive(Clone, Copy, Debug, PartialEq, Eq, Hash)]
pub struct Refusal {
    /// The row of the table: one of [`numbers`](crate::numbers).
    pub number: u32,
    /// -1 for the file, else the trace.
    pub part: i32,
    /// A byte of the file; for 20 to 22 of the value (0 for a text by itself and for a
    /// number to be written), for 25 and 26 of the sheet; for 29 a sample's index; 0 for the
    /// rows that have no place.
    pub place: usize,
}

/// What the place of a refusal counts.
///
/// ```
/// use seg2::{Place, Refusal};
/// let refusal = Refusal { number: 25, part: -1, place: 7 };
/// assert_eq!(refusal.counts(), Place::Sheet);
/// ```
#[derive(Clone, Copy, Debug, PartialEq, Eq)]
pub enum Place {
    /// Bytes of the file.
    File,
    /// Bytes of a keyword's value, or of a number's text.
    Value,
    /// Bytes of the sheet.
    Sheet,
    /// Samples of the row.
    Row,
    /// Nothing: the place is always 0.
    Nothing,
}

impl Refusal {
    /// What the place counts.
    ///
    /// ```
    /// use seg2::{Place, Refusal};
    /// let of = |number| Refusal { number, part: -1, place: 0 }.counts();
    /// assert_eq!((of(9), of(20), of(29), of(24)), (Place::File, Place::Value, Place::Row, Place::Nothing));
    /// ```
    pub fn counts(&self) -> Place {
        match self.number {
            1 | 2 => Place::Nothing,
            20..=22 => Place::Value,
            25 | 26 => Place::Sheet,
            29 => Place::Row,
            _ if self.is_of_check() => Place::File,
            _ => Place::Nothing,
        }
    }

    /// Whether the row is one of a file's check: its part is the file or a trace, and its
    /// place a byte of the file. Every other row has the part -1.
    ///
    /// ```
    /// let of = |number| seg2::Refusal { number, part: -1, place: 0 }.is_of_check();
    /// assert!(of(1) && of(17) && of(34) && !of(18) && !of(35));
    /// ```
    pub fn is_of_check(&self) -> bool {
        matches!(self.number, 1..=17 | 34)
    }

    /// The row in words, without part and place.
    ///
    /// ```
    /// let refusal = seg2::Refusal { number: 3, part: -1, place: 2 };
    /// assert_eq!(refusal.text(), "the revision is not 1");
    /// ```
    pub fn text(&self) -> &'static str {
        text(self.number)
    }
}

impl fmt::Display for Refusal {
    fn fmt(&self, out: &mut fmt::Formatter<'_>) -> fmt::Result {
        write!(out, "refused ({})", self.number)?;
        // of other rows the part is always -1 and says nothing
        match self.is_of_check() {
            true if self.part < 0 => write!(out, " in the file")?,
            true => write!(out, " in trace {}", self.part)?,
            false => {}
        }
        match self.counts() {
            Place::File => write!(out, " at byte {}", self.place)?,
            Place::Value => write!(out, " at byte {} of the value", self.place)?,
            Place::Sheet => write!(out, " at byte {} of the sheet", self.place)?,
            Place::Row => write!(out, " at sample {}", self.place)?,
            Place::Nothing => {}
        }
        write!(out, ": {}", self.text())
    }
}

impl std::error::Error for Refusal {}

/// Why a file is not even read leniently, and the strict check's own row: the same, or one
/// of 14, 16, 17 and 34 that it meets earlier.
///
/// ```
/// let refused = seg2::check_lenient(&[0; 32], 32).unwrap_err();
/// assert_eq!(refused.refusal, refused.strict);
/// assert_eq!(refused.to_string(), refused.refusal.to_string());
///
/// let earlier = seg2::Refusal { number: 17, part: -1, place: 48 };
/// let refused = seg2::LenientRefusal { strict: earlier, ..refused };
/// assert_eq!(
///     refused.to_string(),
///     "refused (2) in the file: the first two bytes are not those of a SEG-2 file; the strict check stops earlier: \
///      refused (17) in the file at byte 48: the keyword is out of order, or there twice \
///      (only RECEIVER_GEOMETRY and SOURCE_GEOMETRY may repeat)"
/// );
/// ```
#[derive(Clone, Copy, Debug, PartialEq, Eq)]
pub struct LenientRefusal {
    /// The first row that the lenient reading meets.
    pub refusal: Refusal,
    /// The first row that the strict check meets.
    pub strict: Refusal,
}

impl LenientRefusal {
    /// A lenient answer, or its refusal with the strict verdict that stands beside it.
    pub(crate) fn told<A>(
        answer: Result<A, Refusal>,
        strict: raw::Verdict,
    ) -> Result<A, LenientRefusal> {
        answer.map_err(|refusal| LenientRefusal {
            refusal,
            // what the lenient reading refuses, the strict one refuses too
            strict: strict.told().err().unwrap_or(refusal),
        })
    }
}

impl fmt::Display for LenientRefusal {
    fn fmt(&self, out: &mut fmt::Formatter<'_>) -> fmt::Result {
        write!(out, "{}", self.refusal)?;
        if self.strict == self.refusal {
            return Ok(());
        }
        write!(out, "; the strict check stops earlier: {}", self.strict)
    }
}

impl std::error::Error for LenientRefusal {}

/// The table: each row's number with its words for a crew, in the order of the numbers.
#[rustfmt::skip]
const TABLE: &[(u32, &str)] = &[
    (1, "the length is under 32 bytes, over 67,108,864 bytes, or over the buffer"),
    (2, "the first two bytes are not those of a SEG-2 file"),
    (3, "the revision is not 1"),
    (4, "the size of the pointer room is under 4 or no multiple of 4"),
    (5, "there are no traces yet, or more than the pointer room holds"),
    (6, "a terminator is bad, or the two terminators share a character"),
    (7, "the pointer room goes past the end of the file"),
    (8, "the trace's pointer is no multiple of 4, leads into what stands before, or leaves no room for a block"),
    (9, "no trace block where the pointer leads"),
    (10, "the block's size is under 32, no multiple of 4, or goes past the end"),
    (11, "the data's size is no multiple of 4 or goes past the end"),
    (12, "the format code is not 1 to 5"),
    (13, "the samples need more bytes than the data has, or are no multiple of 4 under code 3"),
    (14, "a string's offset is missing, too small for a keyword, or leads past its area"),
    (15, "the string terminator is not at the string's end"),
    (16, "a forbidden character in a keyword or value, or an empty keyword"),
    (17, "the keyword is out of order, or there twice (only RECEIVER_GEOMETRY and SOURCE_GEOMETRY may repeat)"),
    (18, "the file has no such part; traces count from 0"),
    (19, "the listing program's input is longer than 65,536 bytes"),
    (20, "this is not a number, the keyword is missing, or a zero to be written has a minus"),
    (21, "the number has too many digits"),
    (22, "the number is too long, too large or too small to be taken as a double"),
    (23, "a location is one value or three: here is another number of values, or the keyword is missing"),
    (24, "no trace slot is free: the file has all traces that it was started for"),
    (25, "a line of the sheet is not a keyword, a tab and a value"),
    (26, "a line of the sheet is out of order, or its keyword is there twice (only RECEIVER_GEOMETRY, SOURCE_GEOMETRY and NOTE may have several lines)"),
    (27, "the sheet's strings need more than 65,500 bytes"),
    (28, "the format code does not fit these samples, or their count is no multiple of 4 under code 3"),
    (29, "a sample is outside what the format code can hold"),
    (30, "the result is longer than the buffer or than 67,108,864 bytes"),
    (31, "the pointer slots are not 1 to 16,383, or the byte order is not 0 or 1"),
    (32, "the row's length is not the number of samples, or not four times the number of strings"),
    (33, "integers are asked of code 4 or 5, or bit patterns of code 1 to 3"),
    (34, "the trace's CHANNEL_NUMBER is not 1 to 32,767 in plain digits, or only one of this trace and trace 0 has it"),
    (35, "the sheet's CHANNEL_NUMBER is not 1 to 32,767 in plain digits, is missing where the file's traces have it, or there where they have none"),
];

/// The numbers of the table, the least first. They need not follow each other without a gap.
///
/// ```
/// assert_eq!(seg2::numbers().next(), Some(1));
/// assert!(seg2::numbers().all(|number| number < 100));
/// ```
pub fn numbers() -> impl Iterator<Item = u32> {
    TABLE.iter().map(|&(number, _)| number)
}

/// A row of the table in words for a crew; 0 is "accepted". The header's `seg2_text` and
/// Java's `text()` have the same.
///
/// ```
/// assert_eq!(seg2::text(24), "no trace slot is free: the file has all traces that it was started for");
/// ```
pub fn text(number: u32) -> &'static str {
    if number == 0 {
        return "accepted";
    }
    let row = TABLE.iter().find(|(listed, _)| *listed == number);
    row.map_or("a number that is not in the table", |(_, words)| words)
}
