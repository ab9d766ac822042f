//! Sheets, and the area that a sheet becomes: document 01, "What we write", rows
//! 25 to 27.

use crate::refusal::{refuse_if, Refusal};
use crate::strings::{is_keyword, may_follow, Terminators, NOTE};
use crate::words::{bytes_of_u16, pad_to_4, round_up_4, Order};

/// "An area is at most 65,500 bytes."
const AREA_MAXIMUM: usize = 65_500;

/// The size of an offset, and of the end mark.
const OFFSET_SIZE: usize = 2;

/// A string of a sheet. Only a NOTE can have more than one line.
#[derive(Clone, Debug, PartialEq, Eq)]
pub struct SheetString {
    pub keyword: Vec<u8>,
    pub lines: Vec<Vec<u8>>,
}

/// The strings of a sheet: rows 25 and 26, line by line, 25 first; the place is
/// the line's start. "a sheet without lines is an empty list".
pub fn sheet_strings(sheet: &[u8]) -> Result<Vec<SheetString>, Refusal> {
    let mut strings: Vec<SheetString> = Vec::new();
    let mut start = 0;
    while start < sheet.len() {
        let (line, next) = finished_line(sheet, start)?;
        let in_note = strings.last().is_some_and(|last| last.keyword == NOTE);
        let (keyword, value) = keyword_and_value(line, in_note).ok_or(Refusal::file(25, start))?;
        match strings.last_mut() {
            // "Consecutive NOTE lines at the end are lines of one NOTE"
            Some(note) if in_note && keyword == NOTE => note.lines.push(value.to_vec()),
            last => {
                let in_order = last.is_none_or(|last| may_follow(&last.keyword, keyword));
                refuse_if(!in_order, Refusal::file(26, start))?;
                strings.push(SheetString {
                    keyword: keyword.to_vec(),
                    lines: vec![value.to_vec()],
                });
            }
        }
        start = next;
    }
    Ok(strings)
}

/// Row 25: "lines of text ended by 0Ah"; the line without its end, and where the
/// next one starts.
fn finished_line(sheet: &[u8], start: usize) -> Result<(&[u8], usize), Refusal> {
    let rest = &sheet[start..];
    match rest.iter().position(|&c| c == b'\n') {
        Some(length) => Ok((&rest[..length], start + length + 1)),
        None => Err(Refusal::file(25, start)),
    }
}

/// Row 25: "keyword (as above), tab, value. Value codes are 32 to 126, not
/// starting with a space"; NOTE lines "from the second on .. may start with a
/// space".
fn keyword_and_value(line: &[u8], in_note: bool) -> Option<(&[u8], &[u8])> {
    let tab = line.iter().position(|&c| c == b'\t')?;
    let (keyword, value) = (&line[..tab], &line[tab + 1..]);
    let may_start_with_space = in_note && keyword == NOTE;
    let good = is_keyword(keyword)
        && value.iter().all(|c| matches!(c, 32..=126))
        && (may_start_with_space || value.first() != Some(&b' '));
    good.then_some((keyword, value))
}

/// The area that a sheet becomes: rows 25, 26, then 27.
pub(crate) fn area_of(
    sheet: &[u8],
    order: Order,
    terminators: &Terminators,
) -> Result<Vec<u8>, Refusal> {
    let strings = sheet_strings(sheet)?;
    let bodies: Vec<Vec<u8>> = strings.iter().map(|s| body(s, terminators)).collect();
    let sizes = bodies.iter().map(|body| OFFSET_SIZE + body.len());
    let size = round_up_4(sizes.sum::<usize>() + OFFSET_SIZE);
    refuse_if(size > AREA_MAXIMUM, Refusal::file(27, 0))?;
    let mut area = Vec::new();
    for body in bodies {
        // The offset counts from its own first byte to the next string's.
        let offset = (OFFSET_SIZE + body.len()) as u16;
        area.extend(bytes_of_u16(offset, order));
        area.extend(body);
    }
    // "then the end mark 0 (for an empty list too), then zeros to a multiple of 4"
    area.extend(bytes_of_u16(0, order));
    pad_to_4(&mut area);
    Ok(area)
}

/// "Each string is written as keyword, one space, value; NOTE lines are joined by
/// the line terminator", and ends with the string terminator.
fn body(string: &SheetString, terminators: &Terminators) -> Vec<u8> {
    let value = string.lines.join(terminators.line.as_slice());
    [&string.keyword, &b" "[..], &value, &terminators.string].concat()
}
