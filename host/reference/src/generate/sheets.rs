//! Sheets with their strings or refusals: rows 25 and 26.

use super::channels::{place_among, KEYWORD};
use super::expected::refused;
use super::model::{may_repeat, random_note_lines, random_text, rising_keywords};
use super::rng::Rng;
use crate::refusal::Refusal;
use crate::sheet::SheetString;

/// A sheet, and its strings or refusal.
#[derive(Clone, Debug)]
pub struct SheetCase {
    pub sheet: Vec<u8>,
    pub expected: Result<Vec<SheetString>, Refusal>,
}

impl SheetCase {
    /// The sheet with a channel number, if one is given, at its sorted place. A sheet that
    /// is refused stays as it is: rows 25 and 26 come before what its lines say.
    pub(super) fn with_channel(mut self, value: Option<Vec<u8>>) -> SheetCase {
        let (Some(value), Ok(strings)) = (value, &mut self.expected) else {
            return self;
        };
        let at = place_among(strings.iter().map(|s| &s.keyword[..]));
        let (keyword, lines) = (KEYWORD.to_vec(), vec![value]);
        strings.insert(at, SheetString { keyword, lines });
        self.sheet = joined(&lines_of(strings));
        self
    }
}

/// A sheet, broken once in three times.
pub fn sheet_case(rng: &mut Rng) -> SheetCase {
    if rng.one_in(3) {
        broken_sheet(rng)
    } else {
        good_sheet(rng)
    }
}

pub fn good_sheet(rng: &mut Rng) -> SheetCase {
    let strings = random_strings(rng);
    SheetCase {
        sheet: joined(&lines_of(&strings)),
        expected: Ok(strings),
    }
}

fn random_strings(rng: &mut Rng) -> Vec<SheetString> {
    let at_most = rng.pick(&[0, 1, 2, 3, 5]);
    let mut strings = Vec::new();
    for keyword in rising_keywords(rng, at_most) {
        let lines = vec![random_text(rng, false)];
        strings.push(SheetString { keyword, lines });
    }
    if rng.one_in(3) {
        let keyword = b"NOTE".to_vec();
        let lines = random_note_lines(rng, false);
        strings.push(SheetString { keyword, lines });
    }
    strings
}

/// The sheet's lines without their ends.
fn lines_of(strings: &[SheetString]) -> Vec<Vec<u8>> {
    let mut lines = Vec::new();
    for string in strings {
        for line in &string.lines {
            lines.push([&string.keyword[..], b"\t", line].concat());
        }
    }
    lines
}

fn joined(lines: &[Vec<u8>]) -> Vec<u8> {
    lines
        .iter()
        .flat_map(|line| [&line[..], b"\n"].concat())
        .collect()
}

/// One fault in one line; lines before it are good.
fn broken_sheet(rng: &mut Rng) -> SheetCase {
    let mut strings = random_strings(rng);
    if strings.is_empty() {
        strings.push(SheetString {
            keyword: b"UNITS".to_vec(),
            lines: vec![b"METERS".to_vec()],
        });
    }
    let mut lines = lines_of(&strings);
    let plain = strings.iter().filter(|s| s.keyword != b"NOTE").count();
    let mut unfinished = false;
    let (number, index) = match rng.between(0, 5) {
        0 | 1 => (26, break_order(rng, &mut lines, plain)),
        2 => {
            // Out of order and bad: "line by line, 25 first".
            let index = break_order(rng, &mut lines, plain);
            lines[index].push(0x0D);
            (25, index)
        }
        3 => {
            unfinished = true;
            (25, lines.len() - 1)
        }
        _ => (25, break_line(rng, &mut lines, plain)),
    };
    let start = joined(&lines[..index]).len();
    let mut sheet = joined(&lines);
    if unfinished {
        sheet.pop();
    }
    SheetCase {
        sheet,
        expected: refused(number, start),
    }
}

/// Puts one line out of order and answers its index. `plain` lines come before
/// the NOTE lines.
fn break_order(rng: &mut Rng, lines: &mut Vec<Vec<u8>>, plain: usize) -> usize {
    if plain == 0 || (plain < lines.len() && rng.one_in(3)) {
        // A line behind the NOTE lines.
        lines.push(rng.pick(&[&b"ZZ\t1"[..], b"A\t", b"NOTES\tx"]).to_vec());
        return lines.len() - 1;
    }
    let last = keyword_of(&lines[plain - 1]);
    let comes_back = |line: &&Vec<u8>| may_repeat(keyword_of(line)) && keyword_of(line) != last;
    if let Some(again) = lines[..plain].iter().find(comes_back).cloned() {
        if rng.one_in(3) {
            // A repeat that does not run.
            lines.insert(plain, again);
            return plain;
        }
    }
    let i = rng.between(0, plain - 1);
    let keyword = keyword_of(&lines[i]);
    let once = !may_repeat(keyword);
    let other_is_next = i + 1 < plain && keyword_of(&lines[i + 1]) != keyword;
    match rng.between(0, 2) {
        0 if other_is_next => lines.swap(i, i + 1),
        1 | 2 if once => lines.insert(i, lines[i].clone()),
        _ => {
            // The longer keyword before its prefix.
            let mut longer = lines[i].clone();
            longer.insert(keyword.len(), b'X');
            lines.insert(i, longer);
        }
    }
    i + 1
}

fn keyword_of(line: &[u8]) -> &[u8] {
    let tab = line.iter().position(|&c| c == b'\t');
    &line[..tab.unwrap_or(0)]
}

/// Makes one line bad and answers its index.
fn break_line(rng: &mut Rng, lines: &mut [Vec<u8>], plain: usize) -> usize {
    let i = rng.between(0, lines.len() - 1);
    let later_note_line = i > plain;
    let line = &mut lines[i];
    let tab = line.iter().position(|&c| c == b'\t').unwrap_or(0);
    let control = rng.pick(&[0, 1, 8, 11, 13, 27, 31]);
    let high = rng.between(127, 255) as u8;
    match rng.between(0, 9) {
        0 => line[tab] = b' ',
        1 => line.push(b'\t'),
        2 => line.push(b'\r'),
        3 => line.push(control),
        4 => line.push(rng.pick(&[high, 127])),
        5 => line.clear(),
        6 => line.insert(rng.between(0, tab), rng.between(97, 122) as u8),
        7 => line.insert(rng.between(0, tab), rng.pick(&[b' ', control, high])),
        8 => drop(line.drain(..tab)),
        _ if later_note_line => line.insert(tab, b'e'),
        _ => line.insert(tab + 1, b' '),
    }
    i
}

/// A sheet of one line whose area is about as large as allowed, or larger.
fn large_sheet(rng: &mut Rng) -> SheetCase {
    let length = rng.pick(&[
        65_488, 65_489, 65_490, 65_491, 65_492, 65_493, 65_494, 70_000,
    ]);
    let strings = vec![SheetString {
        keyword: b"A".to_vec(),
        lines: vec![vec![b'x'; length]],
    }];
    SheetCase {
        sheet: joined(&lines_of(&strings)),
        expected: Ok(strings),
    }
}

pub(super) fn some_sheet(rng: &mut Rng) -> SheetCase {
    match rng.between(0, 19) {
        0 => large_sheet(rng),
        1..=3 => broken_sheet(rng),
        _ => good_sheet(rng),
    }
}

pub(super) fn up_to_4(size: usize) -> usize {
    size.div_ceil(4) * 4
}

/// The size of the area that strings become, by the terminators' lengths.
pub(super) fn area_size(
    strings: &[SheetString],
    string_terminator: usize,
    line_terminator: usize,
) -> usize {
    let mut size = 2;
    for string in strings {
        let text: usize = string.lines.iter().map(Vec::len).sum();
        let joints = (string.lines.len() - 1) * line_terminator;
        size += 2 + string.keyword.len() + 1 + text + joints + string_terminator;
    }
    up_to_4(size)
}
