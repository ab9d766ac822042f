//! Every question of one trace, quickly: blocks, strings, numbers and samples on the footing
//! of document 02, §5. Which rows refuse them, which bytes they look at, and that they answer
//! as the questions of the whole file do.

mod common;

use common::{
    all_refused, broken_strings, file_of, file_of_area, full_answer, number_of, offset, pointer,
    put_pointer, questions, quick_answer, refusal, without_end_mark, FIVE,
};
use seg2_reference::generate::*;
use seg2_reference::*;
use std::collections::BTreeMap;
use std::ops::Range;

fn ask(bytes: &[u8], trace: i64, question: Question) -> Result<QuickTold, Refusal> {
    quick_answer(bytes, bytes.len(), trace, &question)
}

fn looks_at(bytes: &[u8], trace: i64, question: Question) -> Vec<Range<usize>> {
    quick_read(bytes, bytes.len(), trace, &question)
}

// ---- a file by hand

/// One trace at 40 with three strings from 72 on, an end mark at 104 and two bytes behind it,
/// then the data from 108 to 116.
fn worked() -> Vec<u8> {
    let mut area = [&b"DELAY 1.50"[..], b"STACK -2", b"UNITS"]
        .map(|text| common::string(text, &[0]))
        .concat();
    area.extend([0, 0, 0xFF, 0xFF]);
    let data = [1, 0, 0xFF, 0xFF, 0, 1, 7, 7];
    common::file(&[0], &[0x0A], &[0; 4], &common::trace(&area, 1, 3, &data))
}

/// Where keyword and value of the three strings stand, and how long they are.
const PLACES: [usize; 12] = [74, 5, 80, 4, 87, 5, 93, 2, 98, 5, 103, 0];

#[test]
fn answers_by_hand() {
    let bytes = worked();
    assert_eq!(bytes.len(), 116);
    let block = Trace {
        p: 40,
        b: 68,
        d: 8,
        s: 3,
        code: 1,
        strings: Vec::new(),
    };
    assert_eq!(ask(&bytes, 0, Question::Block), Ok(QuickTold::Block(block)));
    assert_eq!(ask(&bytes, 0, Question::Count), Ok(QuickTold::Count(3)));
    for (index, four) in PLACES.chunks(4).enumerate() {
        let string = StringPlace {
            keyword: four[0]..four[0] + four[1],
            value: four[2]..four[2] + four[3],
        };
        let found = ask(&bytes, 0, Question::String { index });
        assert_eq!(found, Ok(QuickTold::String(Some(string))));
    }
    for index in [3, 4, usize::MAX] {
        let found = ask(&bytes, 0, Question::String { index });
        assert_eq!(found, Ok(QuickTold::String(None)));
    }
    let row = ask(&bytes, 0, Question::Strings { row: 12 });
    assert_eq!(row, Ok(QuickTold::Strings(PLACES.to_vec())));
    let row = ask(&bytes, 0, Question::Integers { row: 3 });
    assert_eq!(row, Ok(QuickTold::Integers(vec![1, -1, 256])));
    // The file's own list is empty; a row of no numbers is its row.
    assert_eq!(all_strings(&bytes, bytes.len(), -1, &mut []), Ok(()));
    let mut row = [9; 12];
    assert_eq!(all_strings(&bytes, bytes.len(), 0, &mut row), Ok(()));
    assert_eq!(row, PLACES);
}

#[test]
fn the_bytes_read() {
    let bytes = worked();
    let [head, slot, block] = [0..32, 32..36, 40..72];
    let first = [head, slot, block];
    let strings = [72..85, 85..96, 96..104, 104..106];
    let with = |rest: &[Range<usize>]| [&first[..], rest].concat();
    assert_eq!(looks_at(&bytes, 0, Question::Block), first);
    assert_eq!(looks_at(&bytes, 0, Question::Count), with(&strings));
    for index in 0..3 {
        let read = looks_at(&bytes, 0, Question::String { index });
        assert_eq!(read, with(&strings[..=index]));
    }
    for index in [3, 4, usize::MAX] {
        let read = looks_at(&bytes, 0, Question::String { index });
        assert_eq!(read, with(&strings));
    }
    for row in [0, 11, 12, 13] {
        let read = looks_at(&bytes, 0, Question::Strings { row });
        assert_eq!(read, with(&strings));
    }
    for (key, count) in [
        (&b"DELAY"[..], 1),
        (b"A", 1),
        (b"E", 2),
        (b"UNITS", 3),
        (b"V", 4),
    ] {
        let key = key.to_vec();
        let read = looks_at(&bytes, 0, Question::Keyword { key });
        assert_eq!(read, with(&strings[..count]));
    }
    // The data are looked at where samples are answered, all D bytes, and only there.
    let data = 108..116;
    let read = looks_at(&bytes, 0, Question::Integers { row: 3 });
    assert_eq!(read, with(&[data]));
    for row in [0, 2, 4] {
        assert_eq!(looks_at(&bytes, 0, Question::Integers { row }), first);
    }
    for (row, classes) in [(3, 3), (0, 0)] {
        let read = looks_at(&bytes, 0, Question::Bits { row, classes });
        assert_eq!(read, first);
    }
}

// ---- pointers

/// A pointer may lead into another trace: its block is answered, with the asked trace's
/// number in refusals.
#[test]
fn a_pointer_into_another_trace() {
    let inner = common::trace(&[], 2, 1, &[0x78, 0x56, 0x34, 0x12]);
    let outer = PlainTrace {
        strings: &[b"STACK 5"],
        code: 1,
        count: 18,
        data: &inner,
    };
    let mut bytes = plain_file(Order::Low, &[], &[outer, PlainTrace::of_strings(&[])]);
    let inside = pointer(&bytes, Order::Low, 0) + 32 + 12;
    put_pointer(&mut bytes, Order::Low, 1, inside);
    assert_eq!(number_of(&check(&bytes, bytes.len())), 8);
    let row = ask(&bytes, 1, Question::Integers { row: 1 });
    assert_eq!(row, Ok(QuickTold::Integers(vec![0x1234_5678])));
    assert_eq!(ask(&bytes, 1, Question::Count), Ok(QuickTold::Count(0)));
    assert_eq!(ask(&bytes, 0, Question::Count), Ok(QuickTold::Count(1)));
    // Trace 0 holds it as its data.
    let Ok(QuickTold::Integers(row)) = ask(&bytes, 0, Question::Integers { row: 18 }) else {
        panic!("no samples");
    };
    assert_eq!(row[0], 0x4422);
    bytes[inside] = 0;
    let read = [0..32, 36..40, inside..inside + 32];
    all_refused(&bytes, bytes.len(), 1, refusal(9, 1, inside), &read);
}

// ---- strings

/// How many of the five strings a question judges, and with them what ends the list: none
/// where it looks at no string.
fn judges(question: &Question) -> usize {
    match question {
        Question::Block | Question::Integers { .. } | Question::Bits { .. } => 0,
        Question::String { index } => index.saturating_add(1).min(6),
        // passed by none of them
        Question::Count | Question::Strings { .. } | Question::Keyword { .. } => 6,
    }
}

/// Rows 14 to 17 of each string that a question looks at, and of none behind.
#[test]
fn rows_14_to_17() {
    let whole = file_of(Order::Low, &[&[], &FIVE]);
    let (mut refused, mut answered) = (0, 0);
    for (number, i, bytes, place) in broken_strings(&whole, 1) {
        for question in questions(5, 0) {
            let told = quick_answer(&bytes, bytes.len(), 1, &question);
            if i < judges(&question) {
                let no = Err(refusal(number, 1, place));
                assert_eq!(told, no, "{number} {i} {question:?}");
                refused += 1;
                continue;
            }
            answered += 1;
            assert_eq!(told, full_answer(&whole, whole.len(), 1, &question));
            let read = quick_read(&bytes, bytes.len(), 1, &question);
            // no sample is there, so no data stand behind the strings
            let before = read.iter().all(|part| part.end <= place);
            assert!(before, "{question:?}");
        }
        assert_eq!(ask(&bytes, 0, Question::Count), Ok(QuickTold::Count(0)));
    }
    assert!(refused > 200 && answered > 100, "{refused} {answered}");
}

/// The first string that meets a row refuses, whatever stands behind it.
#[test]
fn the_first_broken_string_refuses() {
    let mut bytes = file_of(Order::Low, &[&FIVE]);
    let start = pointer(&bytes, Order::Low, 0) + 32;
    // The fourth out of order, then the third in lower case, then the first without its end.
    for (i, at, byte, number) in [(3, 2, b'E', 17), (2, 2, b'f', 16), (0, 5, 1, 15)] {
        bytes[start + offset(i) + at] = byte;
        let no = Err(refusal(number, 0, start + offset(i)));
        for question in questions(5, 0) {
            let told = quick_answer(&bytes, bytes.len(), 0, &question);
            match i < judges(&question) {
                true => assert_eq!(told, no, "{question:?}"),
                false => assert_ne!(told, no),
            }
        }
    }
}

/// An empty area (B = 32) has no string; an end mark ends the list, whatever follows.
#[test]
fn ends_of_areas() {
    let empty = file_of_area(&[]);
    let marked = file_of_area(&[0, 0, 0xFF, 0xFF, 1, 0, 7, 7]);
    let mark = 72..74;
    for (bytes, rest) in [(&empty, None), (&marked, Some(mark))] {
        assert_eq!(ask(bytes, 0, Question::Count), Ok(QuickTold::Count(0)));
        for index in [0, 1, usize::MAX] {
            let told = ask(bytes, 0, Question::String { index });
            assert_eq!(told, Ok(QuickTold::String(None)));
        }
        let told = ask(bytes, 0, Question::Strings { row: 0 });
        assert_eq!(told, Ok(QuickTold::Strings(vec![])));
        for row in [1, 4] {
            let told = ask(bytes, 0, Question::Strings { row });
            assert_eq!(told, Err(refusal(32, -1, 0)));
        }
        for question in [
            Question::Count,
            Question::String { index: 0 },
            Question::Strings { row: 0 },
        ] {
            let read = looks_at(bytes, 0, question);
            assert_eq!(read[..3], [0..32, 32..36, 40..72]);
            assert_eq!(read.get(3), rest.as_ref());
        }
    }
}

/// A missing end mark is 14 at the place where no byte is left, or one: for whoever gets
/// there, and so for an index past the last, but not for the last string.
#[test]
fn no_end_mark() {
    for left in [0, 1] {
        let (bytes, place) = without_end_mark(left);
        let no = Err(refusal(14, 0, place));
        for question in [
            Question::Count,
            Question::Strings { row: 8 },
            Question::Strings { row: 0 },
            Question::String { index: 2 },
            Question::String { index: usize::MAX },
        ] {
            assert_eq!(ask(&bytes, 0, question.clone()), no);
            let end = looks_at(&bytes, 0, question).last().map(|part| part.end);
            assert_eq!(end, Some(place));
        }
        for index in [0, 1] {
            let told = ask(&bytes, 0, Question::String { index });
            assert!(matches!(told, Ok(QuickTold::String(Some(_)))));
        }
        assert!(ask(&bytes, 0, Question::Block).is_ok());
    }
}

/// 32 has part -1 and place 0, and stands behind 14 to 17.
#[test]
fn a_row_of_another_length() {
    let bytes = worked();
    for row in [0, 3, 4, 8, 11, 13, 16] {
        let told = ask(&bytes, 0, Question::Strings { row });
        assert_eq!(told, Err(refusal(32, -1, 0)));
        let told = full_answer(&bytes, bytes.len(), 0, &Question::Strings { row });
        assert_eq!(told, Err(refusal(32, -1, 0)));
    }
    // The last string has a lower case letter.
    let mut bytes = bytes;
    bytes[98] = b'u';
    for row in [0, 8, 12] {
        let told = ask(&bytes, 0, Question::Strings { row });
        assert_eq!(told, Err(refusal(16, 0, 96)));
    }
}

/// The full form: the check's rows, then 18 of a part that is not there, then 32.
#[test]
fn all_strings_of_a_part() {
    let strings: &[&[u8]] = &[b"DELAY 7", b"STACK 1"];
    let bytes = file_of(Order::High, &[&[], strings]);
    let p = pointer(&bytes, Order::High, 1);
    let asked = |bytes: &[u8], part: i64, size: usize| {
        let mut row = vec![9; size];
        let told = all_strings(bytes, bytes.len(), part, &mut row);
        assert!(told.is_ok() || row == vec![9; size]);
        told.map(|()| row)
    };
    // "UNITS METERS" behind a pointer room of two slots
    assert_eq!(asked(&bytes, -1, 4), Ok(vec![42, 5, 48, 6]));
    assert_eq!(asked(&bytes, 0, 0), Ok(vec![]));
    let of_1 = vec![p + 34, 5, p + 40, 1, p + 44, 5, p + 50, 1];
    assert_eq!(asked(&bytes, 1, 8), Ok(of_1));
    for part in [-2, 2, i64::MIN, i64::MAX] {
        for row in [0, 4, 8] {
            assert_eq!(asked(&bytes, part, row), Err(refusal(18, -1, 0)));
        }
    }
    for (part, row) in [(-1, 0), (-1, 8), (0, 4), (1, 2), (1, 7), (1, 9)] {
        assert_eq!(asked(&bytes, part, row), Err(refusal(32, -1, 0)));
    }
    // Another trace is broken: every part is refused by that, whatever the row.
    let mut bytes = bytes;
    bytes[p] = 0;
    for (part, row) in [(-1, 4), (0, 0), (7, 0), (1, 1)] {
        assert_eq!(asked(&bytes, part, row), Err(refusal(9, 1, p)));
    }
}

// ---- numbers

/// The value as a number, a double and a location: rows 20 to 23 as of the full question,
/// place counted in the text.
#[test]
fn numbers() {
    let texts: &[&[u8]] = &[
        b"B 0.250",
        b"D -2.3E6",
        b"F 1 -2.5  3.00",
        b"H 1 2",
        b"J 1 2 x",
        b"L 1.345E24",
        b"N 1234567890123456789",
        b"P 0,020",
        b"R",
    ];
    let bytes = file_of(Order::Low, &[&[], texts]);
    let (buffer, length) = (&bytes[..], bytes.len());
    let row = |number, place| Err(refusal(number, -1, place));
    let number = |key: &[u8]| quick_number(buffer, length, 1, key);
    let double = |key: &[u8]| quick_double(buffer, length, 1, key);
    let location = |key: &[u8]| quick_location(buffer, length, 1, key);
    let of = |minus, coefficient, power, decimals| {
        Ok(Number {
            minus,
            coefficient,
            power,
            decimals,
        })
    };
    assert_eq!(number(b"B"), of(false, 250, -3, 3));
    assert_eq!(number(b"D"), of(true, 23, 5, 1));
    assert_eq!(number(b"L"), of(false, 1345, 21, 3));
    assert_eq!(double(b"B"), Ok(0.25));
    assert_eq!(double(b"D"), Ok(-2.3e6));
    assert_eq!(double(b"L"), row(22, 0).map(|()| 0.0));
    let three = Location {
        x: 1.0,
        y: -2.5,
        z: 3.0,
        count: 3,
        decimals: [0, 1, 2],
    };
    assert_eq!(location(b"F"), Ok(three));
    let refused = |key: &[u8]| {
        let numbers = [
            number(key).map(|_| ()),
            double(key).map(|_| ()),
            location(key).map(|_| ()),
        ];
        numbers.map(|told| told.err().map_or((0, 0), |r| (r.number, r.place)))
    };
    assert_eq!(refused(b"H"), [(20, 0), (20, 0), (23, 0)]);
    assert_eq!(refused(b"J"), [(20, 0), (20, 0), (20, 4)]);
    assert_eq!(refused(b"L"), [(0, 0), (22, 0), (22, 0)]);
    assert_eq!(refused(b"N"), [(21, 0), (21, 0), (21, 0)]);
    assert_eq!(refused(b"P"), [(20, 0), (20, 0), (20, 0)]);
    // An empty value, and absent keywords before, between and behind.
    for key in [&b"R"[..], b"A", b"C", b"Z", b"NOTE", b""] {
        assert_eq!(refused(key), [(20, 0), (20, 0), (23, 0)]);
    }
    // What is found or passed before a broken string is answered; behind it there is 16.
    let mut bytes = bytes.clone();
    let place = pointer(&bytes, Order::Low, 1) + 32 + 10;
    bytes[place + 2] = b'd';
    let number = |key: &[u8]| quick_number(&bytes, bytes.len(), 1, key);
    assert_eq!(number(b"B"), of(false, 250, -3, 3));
    assert_eq!(number(b"A"), row(20, 0).and(of(false, 0, 0, 0)));
    for key in [&b"C"[..], b"F", b"NOTE"] {
        let no = refusal(16, 1, place);
        assert_eq!(number(key), Err(no));
        assert_eq!(quick_double(&bytes, bytes.len(), 1, key), Err(no));
        assert_eq!(quick_location(&bytes, bytes.len(), 1, key), Err(no));
    }
    assert_eq!(
        quick_number(&bytes, bytes.len(), -1, b"B"),
        row(18, 0).and(of(false, 0, 0, 0))
    );
}

// ---- samples

/// Five traces, one of each code; each has a string and four samples.
fn five_codes(order: Order) -> Vec<u8> {
    let two = |v: u16| match order {
        Order::Low => v.to_le_bytes(),
        Order::High => v.to_be_bytes(),
    };
    let four = |v: u32| common::four(order, v);
    let eight = |v: u64| match order {
        Order::Low => v.to_le_bytes(),
        Order::High => v.to_be_bytes(),
    };
    let data: [Vec<u8>; 5] = [
        [1, 0xFFFF, 256, 0x8000].map(two).concat(),
        [1, u32::MAX, 256, 0x8000_0000].map(four).concat(),
        [0xF210, 0x0001, 0xFFFE, 0x0005, 0x7FFF, 0]
            .map(two)
            .concat(),
        [0, 1, 0x3F80_0000, 0x7F80_0000].map(four).concat(),
        [0, 1, 0x3FF0_0000_0000_0000, 0x7FF0_0000_0000_0001]
            .map(eight)
            .concat(),
    ];
    let traces: Vec<PlainTrace> = (1..)
        .zip(&data)
        .map(|(code, data)| PlainTrace {
            strings: &[b"STACK 1"],
            code,
            count: 4,
            data,
        })
        .collect();
    plain_file(order, &[], &traces)
}

#[test]
fn samples_of_each_code() {
    for order in [Order::Low, Order::High] {
        let bytes = five_codes(order);
        for (trace, row) in [
            (0, [1, -1, 256, -32768]),
            (1, [1, -1, 256, i32::MIN]),
            (2, [1, -2, 20, 1_073_709_056]),
        ] {
            let told = ask(&bytes, trace, Question::Integers { row: 4 });
            assert_eq!(told, Ok(QuickTold::Integers(row.to_vec())));
        }
        for (trace, row, classes) in [
            (3, [0, 1, 0x3F80_0000, 0x7F80_0000], [0, 1, 2, 3]),
            (
                4,
                [0, 1, 0x3FF0_0000_0000_0000, 0x7FF0_0000_0000_0001],
                [0, 1, 2, 4],
            ),
        ] {
            let told = ask(&bytes, trace, Question::Bits { row: 4, classes: 4 });
            assert_eq!(told, Ok(QuickTold::Bits(row.to_vec(), classes.to_vec())));
        }
    }
}

/// 33 before 32, both of part -1 at place 0, whatever the rows' lengths.
#[test]
fn rows_33_and_32() {
    let bytes = five_codes(Order::Low);
    for trace in 0..5 {
        let integers = trace < 3;
        for row in 0..6 {
            let told = ask(&bytes, trace, Question::Integers { row });
            let number = match (integers, row) {
                (false, _) => 33,
                (true, 4) => 0,
                (true, _) => 32,
            };
            assert_eq!(number_of(&told), number);
            assert!(told.is_ok() || told == Err(refusal(number, -1, 0)));
            for classes in 0..6 {
                let told = ask(&bytes, trace, Question::Bits { row, classes });
                let number = match (integers, row, classes) {
                    (true, _, _) => 33,
                    (false, 4, 4) => 0,
                    (false, _, _) => 32,
                };
                assert_eq!(number_of(&told), number);
                assert!(told.is_ok() || told == Err(refusal(number, -1, 0)));
            }
        }
    }
}

/// "D may exceed this; the rest is ignored. S may be 0."
#[test]
fn more_data_than_samples() {
    let trace = |count| PlainTrace {
        strings: &[],
        code: 2,
        count,
        data: &[5, 0, 0, 0, 9, 9, 9, 9],
    };
    let bytes = plain_file(Order::Low, &[], &[trace(1), trace(0)]);
    let row = ask(&bytes, 0, Question::Integers { row: 1 });
    assert_eq!(row, Ok(QuickTold::Integers(vec![5])));
    let row = ask(&bytes, 1, Question::Integers { row: 0 });
    assert_eq!(row, Ok(QuickTold::Integers(vec![])));
    for (k, row) in [(0, 1), (1, 0)] {
        let start = pointer(&bytes, Order::Low, k) + 32 + 4;
        let read = looks_at(&bytes, k as i64, Question::Integers { row });
        assert_eq!((read.len(), read[3].clone()), (4, start..start + 8));
    }
}

/// No string is judged where samples or a block are asked for, and 34 is given by none.
#[test]
fn strings_and_samples_are_apart() {
    let whole = five_codes(Order::Low);
    for (at, with) in [
        (0, &[1, 0][..]),
        (0, &[0xFF, 0xFF]),
        (2, b"s"),
        (9, b"x"),
        (0, &[0, 0]),
    ] {
        let mut bytes = whole.clone();
        for k in 0..5 {
            let place = pointer(&whole, Order::Low, k) + 32 + at;
            bytes[place..place + with.len()].copy_from_slice(with);
        }
        for trace in 0..5 {
            for question in [
                Question::Block,
                Question::Integers { row: 4 },
                Question::Bits { row: 4, classes: 4 },
            ] {
                let told = quick_answer(&bytes, bytes.len(), trace, &question);
                assert_eq!(told, full_answer(&whole, whole.len(), trace, &question));
            }
        }
    }
    let with: &[&[u8]] = &[b"CHANNEL_NUMBER 7"];
    let bad: &[&[u8]] = &[b"CHANNEL_NUMBER x"];
    for traces in [[with, &[]], [&[], with], [bad, bad], [with, bad]] {
        let bytes = file_of(Order::Low, &traces);
        assert_eq!(number_of(&check(&bytes, bytes.len())), 34);
        for (k, strings) in traces.iter().enumerate() {
            for question in questions(strings.len(), 0) {
                let told = quick_answer(&bytes, bytes.len(), k as i64, &question);
                let bits = matches!(question, Question::Bits { .. });
                assert_eq!(number_of(&told), if bits { 33 } else { 0 });
            }
        }
    }
}

// ---- generated files

/// Of every file that the check accepts, each question of one trace is told what the question
/// of the whole file is told, rows included, for every trace number from 0 on.
#[test]
fn accepted_files_answer_as_the_full_question() {
    let mut rng = Rng::new(602);
    let mut met: BTreeMap<u8, usize> = BTreeMap::new();
    for _ in 0..1_000 {
        let laid = Model::random(&mut rng).lay();
        let (buffer, length) = (&laid.buffer[..], laid.length);
        let n = i64::from(laid.file.n);
        for trace in (0..n).chain([n, n + 1, i64::MAX]) {
            let there = laid.file.traces.get(trace as usize);
            let strings = there.map_or(1, |t| t.strings.len());
            let samples = there.map_or(1, |t| t.s as usize);
            let mut all = questions(strings, samples);
            all.extend(questions(strings + 1, samples + 1));
            for question in all {
                let told = quick_answer(buffer, length, trace, &question);
                let full = full_answer(buffer, length, trace, &question);
                assert_eq!(told, full, "{question:?}");
                *met.entry(number_of(&told)).or_insert(0) += 1;
            }
            let keys = there.iter().flat_map(|t| &t.strings);
            let keys = keys.map(|s| &buffer[s.keyword.clone()]).chain([&b"A"[..]]);
            for key in keys {
                let value = &buffer[keyword_value(buffer, length, trace, key)];
                let yes = keyword(buffer, length, trace, key).map(|_| ());
                let told = quick_number(buffer, length, trace, key);
                assert_eq!(told, yes.and_then(|()| number(value)));
                let told = quick_double(buffer, length, trace, key).map(f64::to_bits);
                assert_eq!(told, yes.and_then(|()| double(value)).map(f64::to_bits));
                let told = quick_location(buffer, length, trace, key);
                assert_eq!(told, yes.and_then(|()| location(value)));
            }
        }
    }
    for number in [0, 18, 32, 33] {
        assert!(met[&number] > 2_000, "{met:?}");
    }
    assert_eq!(met.len(), 4, "{met:?}");
}

/// Questions whose answer, rows and bytes the layout tells.
#[test]
fn generated_questions() {
    let mut rng = Rng::new(603);
    let mut met: BTreeMap<&str, BTreeMap<u8, usize>> = BTreeMap::new();
    let mut apart: BTreeMap<&str, usize> = BTreeMap::new();
    for _ in 0..30_000 {
        let case = quick_case(&mut rng);
        let (buffer, length) = (&case.buffer[..], case.length);
        let refused = check(buffer, length).is_err();
        for QuickAsked {
            question,
            expected,
            read,
        } in &case.asked
        {
            let told = quick_answer(buffer, length, case.trace, question);
            assert_eq!(&told, expected, "{} {question:?}", case.name);
            let looked_at = quick_read(buffer, length, case.trace, question);
            assert_eq!(&looked_at, read, "{} {question:?}", case.name);
            let name = name_of(question);
            let row = number_of(&told);
            *met.entry(name).or_default().entry(row).or_insert(0) += 1;
            *apart.entry(name).or_insert(0) += usize::from(refused && told.is_ok());
        }
    }
    // Every row that a question can give, often, and no other.
    for (name, rows) in [
        ("block", vec![]),
        ("count", vec![14, 15, 16, 17]),
        ("string", vec![14, 15, 16, 17]),
        ("strings", vec![14, 15, 16, 17, 32]),
        ("keyword", vec![14, 15, 16, 17]),
        ("integers", vec![32, 33]),
        ("bits", vec![32, 33]),
    ] {
        let mut expected: Vec<u8> = (0..=13).chain(rows).chain([18]).collect();
        expected.sort();
        let met = &met[name];
        assert!(met.keys().copied().eq(expected), "{name}: {met:?}");
        assert!(met.values().all(|&times| times > 10), "{name}: {met:?}");
        assert!(apart[name] > 500, "{name}: {apart:?}");
    }
}

fn name_of(question: &Question) -> &'static str {
    match question {
        Question::Block => "block",
        Question::Count => "count",
        Question::String { .. } => "string",
        Question::Strings { .. } => "strings",
        Question::Keyword { .. } => "keyword",
        Question::Integers { .. } => "integers",
        Question::Bits { .. } => "bits",
    }
}

/// Whatever comes: an answer, the full one where the file keeps the rules, and else none of
/// the rows that need more than the trace.
#[test]
fn mutations_never_panic() {
    let mut rng = Rng::new(604);
    let mut apart = 0;
    for _ in 0..8_000 {
        let (buffer, length) = mutated(&mut rng);
        let any = rng.bits() as i64;
        let trace = rng.pick(&[-1, 0, 0, 1, 2, any]);
        let checked = check(&buffer, length);
        let (strings, samples) = (rng.between(0, 4), rng.between(0, 9));
        for question in questions(strings, samples) {
            let told = quick_answer(&buffer, length, trace, &question);
            match (&told, &checked) {
                (_, Ok(_)) if trace >= 0 => {
                    assert_eq!(told, full_answer(&buffer, length, trace, &question));
                }
                (_, Err(row)) if row.number <= 7 => assert_eq!(told, Err(*row)),
                (Ok(_), Err(_)) => apart += 1,
                (Err(row), _) => assert!(matches!(row.number, 8..=18 | 32 | 33)),
                (Ok(_), Ok(_)) => panic!("-1 is no trace"),
            }
        }
    }
    assert!(apart > 2_000, "{apart}");
}
