//! Small files written out by hand, for rules with one right answer, and short words for
//! answers.
#![allow(dead_code)]

use seg2_reference as reference;
use seg2_reference::generate::{plain_file, PlainTrace, QuickTold};
use seg2_reference::{check_for_addition, Order, Question, Refusal, Trace};
use std::fmt::Debug;
use std::ops::Range;

/// The fixed part of a low-first file block with one slot.
pub fn head(n: u8, string_terminator: &[u8], line_terminator: &[u8]) -> Vec<u8> {
    let mut bytes = vec![0x55, 0x3A, 1, 0, 4, 0, n, 0];
    for terminator in [string_terminator, line_terminator] {
        bytes.push(terminator.len() as u8);
        bytes.extend(terminator);
        bytes.resize(bytes.len() + 2 - terminator.len(), 0);
    }
    bytes.resize(32, 0);
    bytes
}

/// A low-first trace block with its data: sizes as given, terminators elsewhere.
pub fn trace(area: &[u8], code: u8, samples: u32, data: &[u8]) -> Vec<u8> {
    let mut bytes = vec![0x22, 0x44];
    bytes.extend((32 + area.len() as u16).to_le_bytes());
    bytes.extend((data.len() as u32).to_le_bytes());
    bytes.extend(samples.to_le_bytes());
    bytes.push(code);
    bytes.resize(32, 0);
    bytes.extend(area);
    bytes.extend(data);
    bytes
}

/// A low-first file: one slot, these bytes as the file's area, one trace.
pub fn file(
    string_terminator: &[u8],
    line_terminator: &[u8],
    area: &[u8],
    trace: &[u8],
) -> Vec<u8> {
    let mut bytes = head(1, string_terminator, line_terminator);
    bytes.extend((36 + area.len() as u32).to_le_bytes());
    bytes.extend(area);
    bytes.extend(trace);
    bytes
}

/// A low-first image with N=0 whose area, from byte 36 to its end, is given.
pub fn image(string_terminator: &[u8], line_terminator: &[u8], area: &[u8]) -> Vec<u8> {
    let mut bytes = head(0, string_terminator, line_terminator);
    bytes.extend([0; 4]);
    bytes.extend(area);
    bytes
}

/// A string with its offset in front, low first, body as given.
pub fn string(body: &[u8], string_terminator: &[u8]) -> Vec<u8> {
    let size = 2 + body.len() + string_terminator.len();
    let offset = (size as u16).to_le_bytes();
    [&offset[..], body, string_terminator].concat()
}

/// Keywords and values that an area gives, or number and place counted from the
/// area's start.
pub fn strings_in(
    string_terminator: &[u8],
    line_terminator: &[u8],
    area: &[u8],
) -> Result<Vec<(String, String)>, (u8, u64)> {
    let bytes = image(string_terminator, line_terminator, area);
    match check_for_addition(&bytes, bytes.len()) {
        Ok(file) => {
            let text = |range: &std::ops::Range<usize>| {
                String::from_utf8(bytes[range.clone()].to_vec()).expect("text")
            };
            let pair = |s: &seg2_reference::StringPlace| (text(&s.keyword), text(&s.value));
            Ok(file.strings.iter().map(pair).collect())
        }
        Err(Refusal {
            number,
            part,
            place,
        }) => {
            assert_eq!(part, -1);
            Err((number, place - 36))
        }
    }
}

/// The same for bodies with terminators 00 and 0A, with an end mark behind them.
pub fn strings_of(bodies: &[&[u8]]) -> Result<Vec<(String, String)>, (u8, u64)> {
    let mut area: Vec<u8> = bodies.iter().flat_map(|b| string(b, &[0])).collect();
    area.extend([0, 0]);
    strings_in(&[0], &[0x0A], &area)
}

pub fn pairs(of: &[(&str, &str)]) -> Result<Vec<(String, String)>, (u8, u64)> {
    Ok(of
        .iter()
        .map(|(k, v)| (k.to_string(), v.to_string()))
        .collect())
}

pub fn refusal(number: u8, part: i64, place: usize) -> Refusal {
    Refusal::new(number, part, place)
}

/// The row that an answer is refused by, 0 where it is none.
pub fn number_of<T>(answer: &Result<T, Refusal>) -> u8 {
    answer.as_ref().err().map_or(0, |refusal| refusal.number)
}

/// A file whose traces have these strings each, and no samples.
pub fn file_of(order: Order, traces: &[&[&[u8]]]) -> Vec<u8> {
    let traces: Vec<PlainTrace> = traces.iter().map(|t| PlainTrace::of_strings(t)).collect();
    plain_file(order, &[b"UNITS METERS"], &traces)
}

/// A file of one trace with these strings.
pub fn one_trace(strings: &[&[u8]]) -> Vec<u8> {
    file_of(Order::Low, &[strings])
}

pub fn four(order: Order, value: u32) -> [u8; 4] {
    match order {
        Order::Low => value.to_le_bytes(),
        Order::High => value.to_be_bytes(),
    }
}

/// Where trace k's block starts.
pub fn pointer(bytes: &[u8], order: Order, k: usize) -> usize {
    let slot: [u8; 4] = bytes[32 + 4 * k..36 + 4 * k].try_into().expect("four");
    match order {
        Order::Low => u32::from_le_bytes(slot) as usize,
        Order::High => u32::from_be_bytes(slot) as usize,
    }
}

pub fn put_pointer(bytes: &mut [u8], order: Order, k: usize, p: usize) {
    bytes[32 + 4 * k..36 + 4 * k].copy_from_slice(&four(order, p as u32));
}

/// Five strings with room between their keywords.
pub const FIVE: [&[u8]; 5] = [b"B 1", b"D 22", b"F 333", b"H 4", b"J 5"];

/// Where the i-th string of the five starts, counted from the area's start.
pub fn offset(i: usize) -> usize {
    FIVE[..i].iter().map(|text| text.len() + 3).sum()
}

/// The i-th string of the five breaks a row: bytes at a place counted from its offset.
pub fn broken_by(number: u8, i: usize) -> Vec<(usize, Vec<u8>)> {
    let end = FIVE[i].len() + 2;
    match number {
        14 => vec![(0, vec![3, 0]), (0, vec![1, 0]), (0, vec![0xFF, 0])],
        15 => vec![(end, vec![b'x']), (end, vec![10])],
        16 => vec![
            (2, vec![b'b']),
            (2, vec![b' ']),
            (4, vec![10]),
            (4, vec![200]),
        ],
        // as the one before, or less than it
        _ => vec![(2, vec![b'A']), (2, vec![FIVE[i - 1][0]])],
    }
}

/// A low-first file of one trace with these bytes for its area.
pub fn file_of_area(area: &[u8]) -> Vec<u8> {
    file(&[0], &[0x0A], &[0; 4], &trace(area, 1, 0, &[]))
}

/// What a question of one trace is told, rows included.
pub fn quick_answer(
    buffer: &[u8],
    length: usize,
    trace: i64,
    question: &Question,
) -> Result<QuickTold, Refusal> {
    answer_by(true, buffer, length, trace, question)
}

/// What the question of the whole file is told that stands beside it.
pub fn full_answer(
    buffer: &[u8],
    length: usize,
    trace: i64,
    question: &Question,
) -> Result<QuickTold, Refusal> {
    answer_by(false, buffer, length, trace, question)
}

fn answer_by(
    quick: bool,
    buffer: &[u8],
    length: usize,
    trace: i64,
    question: &Question,
) -> Result<QuickTold, Refusal> {
    match question {
        Question::Block => {
            let block = match quick {
                true => reference::quick_trace_block(buffer, length, trace),
                false => reference::trace_block(buffer, length, trace),
            };
            let strings = Vec::new();
            block.map(|block| QuickTold::Block(Trace { strings, ..block }))
        }
        Question::Count => {
            let count = match quick {
                true => reference::quick_string_count(buffer, length, trace),
                false => reference::string_count(buffer, length, trace),
            };
            count.map(QuickTold::Count)
        }
        Question::String { index } => {
            let string = match quick {
                true => reference::quick_string(buffer, length, trace, *index),
                false => reference::string(buffer, length, trace, *index),
            };
            string.map(QuickTold::String)
        }
        Question::Strings { row } => {
            let row = row_told(*row, 0x5A, |row| match quick {
                true => reference::quick_strings(buffer, length, trace, row),
                false => reference::all_strings(buffer, length, trace, row),
            });
            row.map(QuickTold::Strings)
        }
        Question::Keyword { key } => {
            let (yes, value) = match quick {
                true => (
                    reference::quick_keyword(buffer, length, trace, key),
                    reference::quick_value(buffer, length, trace, key),
                ),
                false => (
                    reference::keyword(buffer, length, trace, key),
                    reference::keyword_value(buffer, length, trace, key),
                ),
            };
            assert!(yes == Ok(true) || value == (0..0));
            yes.map(|yes| QuickTold::Keyword(yes.then_some(value)))
        }
        Question::Integers { row } => {
            let row = row_told(*row, 0x5A5A, |row| match quick {
                true => reference::quick_integers(buffer, length, trace, row),
                false => reference::samples_as_integers(buffer, length, trace, row),
            });
            row.map(QuickTold::Integers)
        }
        Question::Bits { row, classes } => {
            let mut kinds = Err(Refusal::file(0, 0));
            let row = row_told(*row, 0x5A5A, |row| {
                kinds = row_told(*classes, 0x5A, |classes| match quick {
                    true => reference::quick_bits(buffer, length, trace, row, classes),
                    false => reference::samples_as_bits(buffer, length, trace, row, classes),
                });
                kinds.clone().map(drop)
            });
            row.and_then(|row| kinds.map(|classes| QuickTold::Bits(row, classes)))
        }
    }
}

/// A lent row after a call; after a refusal it has to be as it was.
fn row_told<T: Clone + PartialEq + Debug>(
    size: usize,
    paint: T,
    call: impl FnOnce(&mut [T]) -> Result<(), Refusal>,
) -> Result<Vec<T>, Refusal> {
    let before = vec![paint; size];
    let mut row = before.clone();
    let answer = call(&mut row);
    assert!(answer.is_ok() || row == before, "a refusal wrote {row:?}");
    answer.map(|()| row)
}

/// Each question once and the string's more often, for a trace with so many strings and
/// samples.
pub fn questions(strings: usize, samples: usize) -> Vec<Question> {
    let mut all = vec![
        Question::Block,
        Question::Count,
        Question::Strings { row: 4 * strings },
        Question::Keyword {
            key: b"STACK".to_vec(),
        },
        Question::Integers { row: samples },
        Question::Bits {
            row: samples,
            classes: samples,
        },
    ];
    all.extend((0..=strings + 1).map(|index| Question::String { index }));
    all.push(Question::String { index: usize::MAX });
    all
}

/// Every question of a trace is refused in this way, with nothing else looked at than this.
pub fn all_refused(
    buffer: &[u8],
    length: usize,
    trace: i64,
    refusal: Refusal,
    read: &[Range<usize>],
) {
    for question in questions(1, 0) {
        let told = quick_answer(buffer, length, trace, &question);
        assert_eq!(told, Err(refusal), "{question:?}");
        let looked_at = reference::quick_read(buffer, length, trace, &question);
        assert_eq!(looked_at, read, "{question:?}");
    }
}

/// The five strings of a trace with each row from 14 to 17 broken in each of them: the row,
/// which string, the file's bytes and the string's place.
pub fn broken_strings(whole: &[u8], trace: usize) -> Vec<(u8, usize, Vec<u8>, usize)> {
    let start = pointer(whole, Order::Low, trace) + 32;
    let mut all = Vec::new();
    for number in 14..=17 {
        for i in usize::from(number == 17)..5 {
            for (at, with) in broken_by(number, i) {
                let mut bytes = whole.to_vec();
                let place = start + offset(i);
                bytes[place + at..place + at + with.len()].copy_from_slice(&with);
                all.push((number, i, bytes, place));
            }
        }
    }
    all
}

/// A file of one trace with the strings STACK and UNITS, behind which so few bytes of the area
/// are left that no end mark stands there; and where they are left.
pub fn without_end_mark(left: usize) -> (Vec<u8>, usize) {
    // The last value is so long that just so many bytes of the area are left.
    let last = [&b"UNITS "[..], &vec![b'm'; 5 - left]].concat();
    let mut area = [b"STACK 1", &last[..]]
        .map(|text| string(text, &[0]))
        .concat();
    let place = 72 + area.len();
    area.extend(vec![9; left]);
    (file_of_area(&area), place)
}
