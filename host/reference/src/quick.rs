//! One trace, quickly: document 02, §5. A keyword question that "reads the file block's
//! first 32 bytes, pointer k, the first 32 bytes of that trace's block, and its strings in
//! order only until the keyword is found or passed (that string is read whole and checked)";
//! and every other question of a trace on the same footing, with the trace's strings where
//! it is on strings, and with its data where it is on samples.

use crate::check::{image, Head, Purpose, Trace, FIXED_PART};
use crate::number::{double, location, number, Location, Number};
use crate::questions::{
    bits_asked, integers_asked, places_of, read_bits, read_integers, strings_asked,
};
use crate::refusal::Refusal;
use crate::strings::{Area, Manner, StringPlace, NOTE};
use crate::words::Order;
use std::ops::Range;

/// What a question of one trace looks at depends on these alone, beside the file and the
/// trace: rows by their lengths.
#[derive(Clone, Debug, PartialEq, Eq)]
pub enum Question {
    Block,
    Count,
    String {
        index: usize,
    },
    /// All strings, in a row of so many numbers.
    Strings {
        row: usize,
    },
    /// Whether a keyword is there, its value, and the value as a number, a double or a
    /// location: all five look at the same bytes.
    Keyword {
        key: Vec<u8>,
    },
    Integers {
        row: usize,
    },
    Bits {
        row: usize,
        classes: usize,
    },
}

/// The bytes that a question looks at, from the first to the last; no byte stands in two
/// parts, and no part is empty. Two inputs of equal size and length that agree on them get the
/// same answer.
pub fn quick_read(
    buffer: &[u8],
    length: usize,
    trace: i64,
    question: &Question,
) -> Vec<Range<usize>> {
    let mut look = Look::new(buffer, length, trace);
    // What it refuses has been looked at, too.
    let _ = match question {
        Question::Block => look.block().map(drop),
        Question::Count => look.all(),
        Question::String { index } => look.string(*index).map(drop),
        Question::Strings { row } => look.all().and_then(|()| strings_asked(&look.strings, *row)),
        Question::Keyword { key } => look.seek(key).map(drop),
        Question::Integers { row } => look.samples(|t| integers_asked(t, *row)).map(drop),
        Question::Bits { row, classes } => {
            look.samples(|t| bits_asked(t, *row, *classes)).map(drop)
        }
    };
    look.read
}

/// Pointer, sizes, sample count and code, as [`crate::trace_block`] answers them of the whole
/// file. No string is read: their list is empty here.
pub fn quick_trace_block(buffer: &[u8], length: usize, trace: i64) -> Result<Trace, Refusal> {
    let (_, block) = Look::new(buffer, length, trace).block()?;
    Ok(block)
}

/// How many strings the trace has, as [`crate::string_count`]: all are judged.
pub fn quick_string_count(buffer: &[u8], length: usize, trace: i64) -> Result<usize, Refusal> {
    let mut look = Look::new(buffer, length, trace);
    look.all()?;
    Ok(look.strings.len())
}

/// The i-th string, `None` when there are no so many, as [`crate::string`]. The strings up to
/// it are judged, and it, too; what stands behind is not looked at.
pub fn quick_string(
    buffer: &[u8],
    length: usize,
    trace: i64,
    i: usize,
) -> Result<Option<StringPlace>, Refusal> {
    Look::new(buffer, length, trace).string(i)
}

/// All strings in a row, as [`crate::all_strings`]: all are judged before the row's length is.
pub fn quick_strings(
    buffer: &[u8],
    length: usize,
    trace: i64,
    row: &mut [usize],
) -> Result<(), Refusal> {
    let mut look = Look::new(buffer, length, trace);
    look.all()?;
    places_of(&look.strings, row)
}

/// What a search answers, and what it has looked at.
#[derive(Clone, Debug, PartialEq, Eq)]
pub struct Search {
    /// The first string with the keyword, `None` for a no.
    pub answer: Result<Option<StringPlace>, Refusal>,
    /// The strings that were read whole and passed their rows, the one that ended the
    /// search included.
    pub strings: Vec<StringPlace>,
    /// The bytes read, from the first to the last; no byte stands in two parts.
    pub read: Vec<Range<usize>>,
}

/// The search for a keyword among one trace's strings. "It is asked of traces only": -1 is
/// no trace.
pub fn quick_search(buffer: &[u8], length: usize, trace: i64, keyword: &[u8]) -> Search {
    let mut look = Look::new(buffer, length, trace);
    Search {
        answer: look.seek(keyword),
        strings: look.strings,
        read: look.read,
    }
}

/// Yes, no or the refusal, as [`crate::keyword`] answers them of the whole file.
pub fn quick_keyword(
    buffer: &[u8],
    length: usize,
    trace: i64,
    keyword: &[u8],
) -> Result<bool, Refusal> {
    let found = quick_search(buffer, length, trace, keyword).answer?;
    Ok(found.is_some())
}

/// The range of the value in the buffer, `0..0` for a no or a refusal, as
/// [`crate::keyword_value`].
pub fn quick_value(buffer: &[u8], length: usize, trace: i64, keyword: &[u8]) -> Range<usize> {
    match quick_search(buffer, length, trace, keyword).answer {
        Ok(Some(string)) => string.value,
        Ok(None) | Err(_) => 0..0,
    }
}

/// The value as a number. An absent keyword's value is empty: no number, 20.
pub fn quick_number(
    buffer: &[u8],
    length: usize,
    trace: i64,
    keyword: &[u8],
) -> Result<Number, Refusal> {
    number(text_of(buffer, length, trace, keyword)?)
}

/// The value as a double.
pub fn quick_double(
    buffer: &[u8],
    length: usize,
    trace: i64,
    keyword: &[u8],
) -> Result<f64, Refusal> {
    double(text_of(buffer, length, trace, keyword)?)
}

/// The value as a location. An absent keyword's value is empty: neither one value nor three,
/// 23.
pub fn quick_location(
    buffer: &[u8],
    length: usize,
    trace: i64,
    keyword: &[u8],
) -> Result<Location, Refusal> {
    location(text_of(buffer, length, trace, keyword)?)
}

/// The value's text, empty for a no.
fn text_of<'a>(
    buffer: &'a [u8],
    length: usize,
    trace: i64,
    keyword: &[u8],
) -> Result<&'a [u8], Refusal> {
    let found = quick_search(buffer, length, trace, keyword).answer?;
    Ok(found.map_or(b"", |string| &buffer[string.value]))
}

/// The samples of codes 1 to 3, as [`crate::samples_as_integers`]. No string is looked at.
pub fn quick_integers(
    buffer: &[u8],
    length: usize,
    trace: i64,
    row: &mut [i32],
) -> Result<(), Refusal> {
    let mut look = Look::new(buffer, length, trace);
    let (order, block) = look.samples(|t| integers_asked(t, row.len()))?;
    read_integers(buffer, order, &block, row);
    Ok(())
}

/// The bit patterns of codes 4 and 5 and their classes, as [`crate::samples_as_bits`]. No
/// string is looked at.
pub fn quick_bits(
    buffer: &[u8],
    length: usize,
    trace: i64,
    row: &mut [u64],
    classes: &mut [u8],
) -> Result<(), Refusal> {
    let mut look = Look::new(buffer, length, trace);
    let (order, block) = look.samples(|t| bits_asked(t, row.len(), classes.len()))?;
    read_bits(buffer, order, &block, row, classes);
    Ok(())
}

/// A question on its way: what it was given, and what it has looked at so far.
struct Look<'a> {
    buffer: &'a [u8],
    length: usize,
    trace: i64,
    /// The strings that were read whole and passed their rows.
    strings: Vec<StringPlace>,
    read: Vec<Range<usize>>,
}

impl<'a> Look<'a> {
    fn new(buffer: &'a [u8], length: usize, trace: i64) -> Look<'a> {
        Look {
            buffer,
            length,
            trace,
            strings: Vec::new(),
            read: Vec::new(),
        }
    }

    /// "Refusals: those of 01 for the bytes read, in 01's order, with 18 between 7 and 8; 8
    /// here means no multiple of 4, below 32+M, or p+32 past the end." 34 judges a trace
    /// beside trace 0, which is not read: it is not given.
    fn block(&mut self) -> Result<(Head<'a>, Trace), Refusal> {
        let image = image(self.buffer, self.length)?;
        self.read.push(0..FIXED_PART);
        let head = Head::check(image, Purpose::Reading(Manner::Strict))?;
        let k = trace_number(self.trace, head.n)?;
        let slot = FIXED_PART + 4 * usize::from(k);
        self.read.push(slot..slot + 4);
        let p = head.pointer(k, head.room_end() as u64)?;
        self.read.push(p as usize..p as usize + FIXED_PART);
        let block = head.trace_block(self.trace, p)?;
        Ok((head, block))
    }

    /// All strings and what ends their list.
    fn all(&mut self) -> Result<(), Refusal> {
        self.strings_until(|_, _| false)
    }

    /// The strings up to the i-th.
    fn string(&mut self, i: usize) -> Result<Option<StringPlace>, Refusal> {
        self.strings_until(|index, _| index == i)?;
        Ok(self.strings.get(i).cloned())
    }

    /// The strings until one is the asked one or ends the search.
    fn seek(&mut self, keyword: &[u8]) -> Result<Option<StringPlace>, Refusal> {
        self.strings_until(|_, met| met == keyword || passes(met, keyword))?;
        let is_it = |string: &&StringPlace| &self.buffer[string.keyword.clone()] == keyword;
        Ok(self.strings.last().filter(is_it).cloned())
    }

    /// The strings one by one, rows 14 to 17 each, until one that was judged ends the walk, by
    /// its index and keyword, or none is left. "An empty area is an empty list."
    fn strings_until(&mut self, ends: impl Fn(usize, &[u8]) -> bool) -> Result<(), Refusal> {
        let (head, block) = self.block()?;
        let area = head.area(self.trace, block.strings_range());
        let mut at = area.range.start;
        while !area.range.is_empty() {
            self.read.extend(bytes_of_string(&area, at));
            let Some((string, next)) = area.string_at(at, self.strings.last())? else {
                break;
            };
            let is_last = ends(self.strings.len(), &area.image[string.keyword.clone()]);
            self.strings.push(string);
            if is_last {
                break;
            }
            at = next;
        }
        Ok(())
    }

    /// The file's order and the block, if the question's own rows pass: only then the data
    /// are looked at.
    fn samples(
        &mut self,
        asked: impl FnOnce(&Trace) -> Result<(), Refusal>,
    ) -> Result<(Order, Trace), Refusal> {
        let (head, block) = self.block()?;
        asked(&block)?;
        let data = block.data_range();
        self.read.extend((!data.is_empty()).then_some(data));
        Ok((head.order, block))
    }
}

/// Row 18, before the pointer is looked at.
fn trace_number(trace: i64, n: u16) -> Result<u16, Refusal> {
    let there = u16::try_from(trace).ok().filter(|&k| k < n);
    there.ok_or(Refusal::file(18, 0))
}

/// Whether no string with the asked keyword may stand behind one with another: keywords
/// rise, and NOTE comes after all others. "NOTE is sought to the end". (Slices compare byte
/// by byte, a prefix first; a key that can be no keyword is sought like others.)
fn passes(met: &[u8], keyword: &[u8]) -> bool {
    keyword != NOTE && (met == NOTE || met > keyword)
}

/// What is read of the string at a place: its offset, if the area has two bytes for it, and
/// all of it where row 14 passes and it is no end mark.
fn bytes_of_string(area: &Area<'_>, at: usize) -> Option<Range<usize>> {
    match area.next_string(at) {
        Ok(Some(next)) => Some(at..next),
        _ => (at + 2 <= area.range.end).then_some(at..at + 2),
    }
}

#[cfg(test)]
mod tests {
    use super::*;

    #[test]
    fn what_ends_a_search() {
        assert!(passes(b"STACK", b"DELAY"));
        assert!(!passes(b"DELAY", b"STACK"));
        assert!(passes(b"AB", b"A"));
        assert!(!passes(b"A", b"AB"));
        assert!(passes(b"A", b""));
        assert!(passes(NOTE, b"UNITS"));
        assert!(passes(NOTE, b"\xFF"));
        assert!(!passes(b"UNITS", NOTE));
        assert!(!passes(b"~", NOTE));
        assert!(!passes(b"A", NOTE));
        assert!(!passes(b"~", b"\x7F"));
        assert!(passes(b"A", b" A"));
    }

    #[test]
    fn only_traces_that_are_there() {
        let no = Err(Refusal::file(18, 0));
        assert_eq!(trace_number(0, 1), Ok(0));
        assert_eq!(trace_number(16_382, 16_383), Ok(16_382));
        for trace in [-1, -2, 1, 65_536, 1 << 32, i64::MIN, i64::MAX] {
            assert_eq!(trace_number(trace, 1), no);
        }
    }
}
