//! One string, and an area of strings: document 01, "Strings", rows 14 to 17, and the lenient
//! manner of document 02, §11.

use crate::refusal::{refuse_if, Refusal};
use crate::words::{u16_at, Order};
use std::ops::Range;

/// The keyword that comes last, once at most, and may hold several lines.
pub const NOTE: &[u8] = b"NOTE";

/// Where a string's keyword and value stand in the file. An empty value stands
/// at the terminator's place, with or without separators before it.
#[derive(Clone, Debug, PartialEq, Eq, Hash)]
pub struct StringPlace {
    pub keyword: Range<usize>,
    pub value: Range<usize>,
}

impl StringPlace {
    /// Start and length of the keyword, then of the value.
    pub fn numbers(&self) -> [usize; 4] {
        let StringPlace { keyword, value } = self;
        [keyword.start, keyword.len(), value.start, value.len()]
    }
}

/// The terminators in use, one or two characters each.
#[derive(Clone, Debug, PartialEq, Eq)]
pub struct Terminators {
    pub string: Vec<u8>,
    pub line: Vec<u8>,
}

/// How strings are read.
#[derive(Clone, Copy, Debug, PartialEq, Eq)]
pub enum Manner {
    /// As document 01 has it.
    Strict,
    /// "it takes lower-case keyword letters as upper case, accepts any order and repeats, and
    /// ends a list where no byte of the area is left" (document 02, §11).
    Lenient,
}

impl Manner {
    /// What a keyword counts as, wherever it is judged or compared.
    pub fn keyword(self, text: &[u8]) -> Vec<u8> {
        match self {
            Manner::Strict => text.to_vec(),
            Manner::Lenient => text.to_ascii_uppercase(),
        }
    }
}

/// "spaces or tabs": what parts keyword and value.
pub fn is_separator(character: u8) -> bool {
    character == b' ' || character == b'\t'
}

/// "uses codes 33 to 126 except 97 to 122"
fn is_keyword_character(character: u8) -> bool {
    matches!(character, 33..=126) && !matches!(character, 97..=122)
}

/// "has at least one character", all of them keyword characters.
pub fn is_keyword(text: &[u8]) -> bool {
    !text.is_empty() && text.iter().all(|&c| is_keyword_character(c))
}

/// "It uses 32 to 126 and tab"
fn is_value_character(character: u8) -> bool {
    matches!(character, 32..=126) || character == b'\t'
}

/// A value of any keyword but NOTE.
fn is_value(text: &[u8]) -> bool {
    text.iter().all(|&c| is_value_character(c))
}

/// "in NOTE also whole line terminators, matched from the left"
fn is_note_value(text: &[u8], line_terminator: &[u8]) -> bool {
    parted_lines(text, line_terminator)
        .iter()
        .all(|line| is_value(line))
}

/// The parts between whole line terminators, matched from the left, empty ones
/// too. Without a terminator there is one line.
pub(crate) fn parted_lines<'a>(text: &'a [u8], line_terminator: &[u8]) -> Vec<&'a [u8]> {
    let mut lines = Vec::new();
    let (mut start, mut at) = (0, 0);
    while at < text.len() {
        if !line_terminator.is_empty() && text[at..].starts_with(line_terminator) {
            lines.push(&text[start..at]);
            at += line_terminator.len();
            start = at;
        } else {
            at += 1;
        }
    }
    lines.push(&text[start..]);
    lines
}

/// "RECEIVER_GEOMETRY and SOURCE_GEOMETRY may stand several times running, in
/// files and in sheets" (document 02, §1).
pub(crate) const REPEATED: [&[u8]; 2] = [b"RECEIVER_GEOMETRY", b"SOURCE_GEOMETRY"];

/// "Keywords strictly rise in byte order, a prefix first; NOTE comes after all
/// others, once at most." (Slices compare byte by byte, a prefix first.)
pub fn may_follow(previous: &[u8], keyword: &[u8]) -> bool {
    if previous == keyword {
        return REPEATED.contains(&keyword);
    }
    previous != NOTE && (keyword == NOTE || previous < keyword)
}

/// The strings of one area of a file.
pub(crate) struct Area<'a> {
    pub image: &'a [u8],
    pub order: Order,
    pub terminators: &'a Terminators,
    pub manner: Manner,
    /// The part that refusals name: -1 for the file, else the trace.
    pub part: i64,
    pub range: Range<usize>,
}

impl Area<'_> {
    /// "An empty area is an empty list. Otherwise each string starts with a
    /// 2-byte offset o .. Offset 0 ends the list". Strings are taken one by one,
    /// rows 14 to 17 each.
    pub fn strings(&self) -> Result<Vec<StringPlace>, Refusal> {
        let mut found: Vec<StringPlace> = Vec::new();
        if self.range.is_empty() {
            return Ok(found);
        }
        let mut at = self.range.start;
        while let Some((string, next)) = self.string_at(at, found.last())? {
            found.push(string);
            at = next;
        }
        Ok(found)
    }

    /// Rows 14 to 17 of the string at a place, behind the one before it: the string and
    /// where the next one starts, `None` where the list ends.
    pub fn string_at(
        &self,
        at: usize,
        previous: Option<&StringPlace>,
    ) -> Result<Option<(StringPlace, usize)>, Refusal> {
        let Some(next) = self.next_string(at)? else {
            return Ok(None);
        };
        let body = self.body(at, next)?;
        let string = self.keyword_and_value(at, body)?;
        if let Some(previous) = previous {
            self.in_order(at, previous, &string)?;
        }
        Ok(Some((string, next)))
    }

    fn refusal(&self, number: u8, at: usize) -> Refusal {
        Refusal::new(number, self.part, at)
    }

    /// Row 14: where the next string starts; `None` where the list ends. The offset
    /// counts from its own first byte. A missing end mark is an offset that is
    /// not in the area, but for the lenient manner where no byte of it is left.
    pub fn next_string(&self, at: usize) -> Result<Option<usize>, Refusal> {
        let end = self.range.end;
        if self.manner == Manner::Lenient && at == end {
            return Ok(None);
        }
        refuse_if(at + 2 > end, self.refusal(14, at))?;
        let offset = usize::from(u16_at(self.image, at, self.order));
        if offset == 0 {
            return Ok(None);
        }
        // The offset itself, one keyword character and the terminator.
        let smallest = 2 + 1 + self.terminators.string.len();
        refuse_if(offset < smallest, self.refusal(14, at))?;
        refuse_if(at + offset > end, self.refusal(14, at))?;
        Ok(Some(at + offset))
    }

    /// Row 15: "The last bytes of the o bytes are the string terminator"; the
    /// body lies between the offset and the terminator.
    fn body(&self, at: usize, next: usize) -> Result<Range<usize>, Refusal> {
        let terminator = &self.terminators.string;
        let body = at + 2..next - terminator.len();
        refuse_if(
            &self.image[body.end..next] != terminator.as_slice(),
            self.refusal(15, at),
        )?;
        Ok(body)
    }

    /// Row 16: "The keyword runs to the first space or tab or the end .. The
    /// value is what follows the separators."
    fn keyword_and_value(&self, at: usize, body: Range<usize>) -> Result<StringPlace, Refusal> {
        let text = &self.image[body.clone()];
        let keyword_length = text
            .iter()
            .position(|&c| is_separator(c))
            .unwrap_or(text.len());
        let value_start = (keyword_length..text.len())
            .find(|&i| !is_separator(text[i]))
            .unwrap_or(text.len());
        let keyword = self.manner.keyword(&text[..keyword_length]);
        let value = &text[value_start..];
        let value_allowed = if keyword == NOTE {
            is_note_value(value, &self.terminators.line)
        } else {
            is_value(value)
        };
        refuse_if(
            !is_keyword(&keyword) || !value_allowed,
            self.refusal(16, at),
        )?;
        Ok(StringPlace {
            keyword: body.start..body.start + keyword_length,
            value: body.start + value_start..body.end,
        })
    }

    /// Row 17, which the lenient manner never gives.
    fn in_order(
        &self,
        at: usize,
        previous: &StringPlace,
        string: &StringPlace,
    ) -> Result<(), Refusal> {
        let keyword = |place: &StringPlace| &self.image[place.keyword.clone()];
        let out_of_order = !may_follow(keyword(previous), keyword(string));
        refuse_if(
            self.manner == Manner::Strict && out_of_order,
            self.refusal(17, at),
        )
    }
}

#[cfg(test)]
mod tests {
    use super::*;

    #[test]
    fn keyword_characters() {
        let allowed: Vec<u8> = (0..=255).filter(|&c| is_keyword_character(c)).collect();
        let expected: Vec<u8> = (33..=96).chain(123..=126).collect();
        assert_eq!(allowed, expected);
    }

    /// "it takes lower-case keyword letters as upper case": 97 to 122 alone, as 65 to 90.
    #[test]
    fn what_keywords_count_as() {
        let all: Vec<u8> = (0..=255).collect();
        assert_eq!(Manner::Strict.keyword(&all), all);
        let counted = Manner::Lenient.keyword(&all);
        assert_eq!(counted[97..=122], all[65..=90]);
        assert_eq!(counted[..97], all[..97]);
        assert_eq!(counted[123..], all[123..]);
    }

    #[test]
    fn value_characters() {
        let allowed: Vec<u8> = (0..=255).filter(|&c| is_value_character(c)).collect();
        let expected: Vec<u8> = [9].into_iter().chain(32..=126).collect();
        assert_eq!(allowed, expected);
    }

    #[test]
    fn keyword_order() {
        assert!(may_follow(b"A", b"AB"));
        assert!(!may_follow(b"AB", b"A"));
        assert!(!may_follow(b"A", b"A"));
        assert!(may_follow(b"Z", NOTE));
        assert!(may_follow(b"NOTES", NOTE));
        assert!(!may_follow(NOTE, b"Z"));
        assert!(!may_follow(NOTE, NOTE));
        assert!(may_follow(b"NOT", b"NOTE_"));
    }

    #[test]
    fn two_keywords_may_repeat() {
        assert!(may_follow(b"RECEIVER_GEOMETRY", b"RECEIVER_GEOMETRY"));
        assert!(may_follow(b"SOURCE_GEOMETRY", b"SOURCE_GEOMETRY"));
        assert!(may_follow(b"RECEIVER_GEOMETRY", b"SOURCE_GEOMETRY"));
        assert!(!may_follow(b"SOURCE_GEOMETRY", b"RECEIVER_GEOMETRY"));
        assert!(!may_follow(b"RECEIVER_LOCATION", b"RECEIVER_LOCATION"));
        assert!(!may_follow(b"SHOT", b"RECEIVER_GEOMETRY"));
        assert!(!may_follow(b"RECEIVER_GEOMETRYX", b"RECEIVER_GEOMETRY"));
        assert!(!may_follow(b"RECEIVER_GEOMETR", b"RECEIVER_GEOMETR"));
    }

    #[test]
    fn lines_are_parted_from_the_left() {
        assert_eq!(parted_lines(b"", b"\n"), [b""]);
        assert_eq!(parted_lines(b"\n\n", b"\n"), [b"", b"", b""]);
        assert_eq!(parted_lines(b"a\r\nb", b"\r\n"), [b"a", b"b"]);
        assert_eq!(parted_lines(b"a\n\n\nb", b"\n\n"), [&b"a"[..], b"\nb"]);
        assert_eq!(parted_lines(b"ab", b""), [b"ab"]);
    }

    #[test]
    fn note_values() {
        assert!(is_note_value(b"a\r\n\tb\r\n", b"\r\n"));
        assert!(!is_note_value(b"a\n\rb", b"\r\n"));
        assert!(!is_note_value(b"a\r", b"\r\n"));
        assert!(!is_note_value(b"a\n\n\nb", b"\n\n"));
        assert!(is_note_value(b"a\n\n\n\nb", b"\n\n"));
    }
}
