//! Refusals: document 01, "Refusal numbers, in order of checking", and those that document 02
//! adds.

use std::fmt;

/// Every refusal number.
pub const ALL: &[u8] = &[
    1, 2, 3, 4, 5, 6, 7, 8, 9, 10, 11, 12, 13, 14, 15, 16, 17, 18, 19, 20, 21, 22, 23, 24, 25, 26,
    27, 28, 29, 30, 31, 32, 33, 34, 35,
];

/// The part that stands for the file itself; other parts are trace indices.
pub const FILE_PART: i64 = -1;

/// "A refusal gives number, part (-1 for the file, else the trace) and place."
#[derive(Clone, Copy, Debug, PartialEq, Eq, Hash)]
pub struct Refusal {
    /// The row of the table.
    pub number: u8,
    /// -1 for the file, else the trace.
    pub part: i64,
    /// A byte position in the file, for 25 and 26 in the sheet, for 20 to 22 in
    /// the text (0 where a number is written), for 29 the sample's index; 0 where
    /// the table says so.
    pub place: u64,
}

impl Refusal {
    /// A refusal of the given part.
    pub fn new(number: u8, part: i64, place: usize) -> Refusal {
        Refusal {
            number,
            part,
            place: place as u64,
        }
    }

    /// A refusal whose part is -1: rows 1 to 7, the file's strings, and every row that is
    /// none of the check.
    pub fn file(number: u8, place: usize) -> Refusal {
        Refusal::new(number, FILE_PART, place)
    }
}

/// Whether a row is one of a file's check, with its part and a byte of the file.
pub fn is_of_check(number: u8) -> bool {
    matches!(number, 1..=17 | 34)
}

/// One row of the table: when the test holds, this is the answer.
pub(crate) fn refuse_if(test: bool, refusal: Refusal) -> Result<(), Refusal> {
    if test {
        Err(refusal)
    } else {
        Ok(())
    }
}

/// Number, part and place. The words of a row are the library's; they are not repeated here.
impl fmt::Display for Refusal {
    fn fmt(&self, out: &mut fmt::Formatter<'_>) -> fmt::Result {
        write!(out, "refused ({})", self.number)?;
        match self.number {
            number if is_of_check(number) => match self.part < 0 {
                true => write!(out, " in the file at byte {}", self.place)?,
                false => write!(out, " in trace {} at byte {}", self.part, self.place)?,
            },
            20..=22 => write!(out, " at byte {} of the text", self.place)?,
            25 | 26 => write!(out, " at byte {} of the sheet", self.place)?,
            29 => write!(out, " at sample {}", self.place)?,
            _ => {}
        }
        Ok(())
    }
}

impl std::error::Error for Refusal {}

#[cfg(test)]
mod tests {
    use super::*;

    #[test]
    fn part_and_place_are_told() {
        for (refusal, said) in [
            (
                Refusal::new(16, 3, 1234),
                "refused (16) in trace 3 at byte 1234",
            ),
            (Refusal::file(3, 2), "refused (3) in the file at byte 2"),
            (
                Refusal::new(34, 2, 88),
                "refused (34) in trace 2 at byte 88",
            ),
            (Refusal::file(35, 0), "refused (35)"),
            (Refusal::file(20, 1), "refused (20) at byte 1 of the text"),
            (Refusal::file(24, 0), "refused (24)"),
            (Refusal::file(26, 9), "refused (26) at byte 9 of the sheet"),
            (Refusal::file(29, 7), "refused (29) at sample 7"),
        ] {
            assert_eq!(refusal.to_string(), said);
        }
    }
}
