//! Rows 14 to 17: the strings of a block; a keyword's value among them.

use super::character::{blank, in_keyword, in_lenient_keyword, in_value, told};
use super::file::Raw;
use super::{hex, order_found, quoted};
use seg2::Refusal;

/// What stands at the offset of a refused string.
pub fn found(raw: Raw, refusal: &Refusal) -> String {
    let string = Text::at(raw, refusal.place);
    match refusal.number {
        14 => offset_found(raw, refusal),
        15 => end_found(raw, &string),
        16 => string.bad_character(raw, in_keyword, string.keyword == b"NOTE"),
        _ => order_found(keyword_before(raw, refusal), string.keyword),
    }
}

/// The same where the lenient reading refuses it (document 02, §11): it has other words only
/// where it forgives something of a row.
pub fn found_leniently(raw: Raw, refusal: &Refusal) -> String {
    let string = Text::at(raw, refusal.place);
    let (_, end) = raw.area(refusal.part);
    match refusal.number {
        14 if refusal.place + 1 == end => {
            format!(
                "byte {} is left behind the last string, and an end mark has 2 bytes",
                end - 1
            )
        }
        16 => {
            let is_note = string.keyword.eq_ignore_ascii_case(b"NOTE");
            string.bad_character(raw, in_lenient_keyword, is_note)
        }
        _ => found(raw, refusal),
    }
}

/// The keyword of the string at a place whose frame is good.
pub fn keyword_at(raw: Raw<'_>, place: usize) -> &[u8] {
    Text::at(raw, place).keyword
}

/// A string whose frame is good: keyword and value, and where each stands.
struct Text<'a> {
    start: usize,
    offset: usize,
    keyword: &'a [u8],
    value_start: usize,
    value: &'a [u8],
}

impl<'a> Text<'a> {
    fn at(raw: Raw<'a>, start: usize) -> Text<'a> {
        let offset = raw.word(start, 2);
        let size = offset.saturating_sub(2 + raw.string_terminator().len());
        let text = raw.part(start + 2, size);
        let end = text.iter().position(|&c| blank(c)).unwrap_or(text.len());
        let (keyword, rest) = text.split_at(end);
        let gap = rest.iter().take_while(|&&c| blank(c)).count();
        Text {
            start,
            offset,
            keyword,
            value_start: start + 2 + end + gap,
            value: &rest[gap..],
        }
    }

    /// The character that is not allowed, at its own byte: what a keyword may have is told,
    /// and whether this is a NOTE, which has lines.
    fn bad_character(&self, raw: Raw, allowed: fn(u8) -> bool, is_note: bool) -> String {
        let at = self.start + 2;
        if self.keyword.is_empty() {
            let first = told(raw.part(at, 4));
            return format!("the keyword is empty: byte {at} is {first}");
        }
        if let Some(bad) = self.keyword.iter().position(|&c| !allowed(c)) {
            let keyword = quoted(self.keyword);
            let said = told(&self.keyword[bad..]);
            return format!("byte {} is {said}, in the keyword {keyword}", at + bad);
        }
        let lines = if is_note { raw.line_terminator() } else { &[] };
        let bad = bad_in_value(self.value, lines).unwrap_or(0);
        let said = told(&self.value[bad.min(self.value.len())..]);
        let partly = match self.value.get(bad) {
            Some(c) if lines.contains(c) => ", and no whole line terminator",
            _ => "",
        };
        let keyword = quoted(self.keyword);
        let place = self.value_start + bad;
        format!("byte {place} is {said}{partly}, in the value of {keyword}")
    }
}

/// Where a value has a character that is not allowed. Line terminators are matched from
/// the left; where there are none to match, none are given.
fn bad_in_value(value: &[u8], line_terminator: &[u8]) -> Option<usize> {
    let mut at = 0;
    while let Some(&c) = value.get(at) {
        if !line_terminator.is_empty() && value[at..].starts_with(line_terminator) {
            at += line_terminator.len();
        } else if in_value(c) || c == b'\t' {
            at += 1;
        } else {
            return Some(at);
        }
    }
    None
}

fn offset_found(raw: Raw, refusal: &Refusal) -> String {
    let at = refusal.place;
    let (_, end) = raw.area(refusal.part);
    if at + 2 > end {
        return format!("the strings end at byte {end} without an end mark");
    }
    let offset = raw.word(at, 2);
    let least = 3 + raw.string_terminator().len();
    if offset < least {
        return format!("the offset is {offset}, and the shortest string has {least} bytes");
    }
    let next = at + offset;
    format!("the offset {offset} leads to byte {next}, and the strings end at byte {end}")
}

fn end_found(raw: Raw, string: &Text) -> String {
    let terminator = raw.string_terminator();
    let at = (string.start + string.offset).saturating_sub(terminator.len());
    let there = raw.part(at, terminator.len());
    let keyword = quoted(string.keyword);
    format!(
        "byte {at} is {}, and the string of {keyword} ends with {}",
        hex(there),
        hex(terminator)
    )
}

/// The value of a keyword in a part whose strings are good.
pub fn value<'a>(raw: Raw<'a>, part: i32, keyword: &[u8]) -> Option<&'a [u8]> {
    let (mut at, end) = raw.area(part);
    while at + 2 <= end && raw.word(at, 2) > 0 {
        let string = Text::at(raw, at);
        if string.keyword == keyword {
            return Some(string.value);
        }
        at += string.offset;
    }
    None
}

/// The keyword of the string before a place.
pub fn keyword_before<'a>(raw: Raw<'a>, refusal: &Refusal) -> &'a [u8] {
    let (mut at, _) = raw.area(refusal.part);
    let mut keyword: &[u8] = &[];
    while at < refusal.place {
        let string = Text::at(raw, at);
        keyword = string.keyword;
        // strings before the refused one are good, so this goes on
        at += string.offset.max(1);
    }
    keyword
}
