//! Document 02, §5: one trace, quickly. How it is read, row by row and string by string,
//! which bytes it looks at, and that the generated cases reach all of it.

mod common;

use common::{
    all_refused, broken_strings, file_of, file_of_area, number_of, offset, one_trace, pointer,
    put_pointer, questions, quick_answer, refusal, without_end_mark, FIVE,
};
use seg2_reference::generate::*;
use seg2_reference::*;
use std::collections::{BTreeMap, BTreeSet};
use std::ops::Range;

/// The value's text, nothing for a no; both calls have to say the same.
fn asked_in<'a>(
    buffer: &'a [u8],
    length: usize,
    trace: i64,
    key: &[u8],
) -> Result<Option<&'a [u8]>, Refusal> {
    let found = quick_search(buffer, length, trace, key).answer;
    let range = quick_value(buffer, length, trace, key);
    let yes = quick_keyword(buffer, length, trace, key);
    assert_eq!(yes, found.clone().map(|string| string.is_some()));
    match found? {
        Some(string) => {
            assert_eq!(string.value, range);
            Ok(Some(&buffer[range]))
        }
        None => {
            assert_eq!(range, 0..0);
            Ok(None)
        }
    }
}

fn asked<'a>(bytes: &'a [u8], trace: i64, key: &[u8]) -> Result<Option<&'a [u8]>, Refusal> {
    asked_in(bytes, bytes.len(), trace, key)
}

/// What the full question answers, in the same words.
fn full<'a>(
    buffer: &'a [u8],
    length: usize,
    part: i64,
    key: &[u8],
) -> Result<Option<&'a [u8]>, Refusal> {
    let yes = keyword(buffer, length, part, key)?;
    let range = keyword_value(buffer, length, part, key);
    Ok(yes.then(|| &buffer[range]))
}

#[test]
fn each_trace_answers_of_itself() {
    for order in [Order::Low, Order::High] {
        let traces: [&[&[u8]]; 3] = [
            &[b"DELAY 1", b"STACK 10"],
            &[b"STACK 20", b"NOTE x"],
            &[b"ALIAS_FILTER 5", b"STACK", b"UNITS  a b "],
        ];
        let bytes = file_of(order, &traces);
        for (k, value) in [&b"10"[..], b"20", b""].into_iter().enumerate() {
            assert_eq!(asked(&bytes, k as i64, b"STACK"), Ok(Some(value)));
        }
        assert_eq!(asked(&bytes, 2, b"UNITS"), Ok(Some(&b"a b "[..])));
        assert_eq!(asked(&bytes, 1, b"NOTE"), Ok(Some(&b"x"[..])));
        // The file's own string is no trace's.
        assert_eq!(asked(&bytes, 0, b"UNITS"), Ok(None));
        assert_eq!(asked(&bytes, 1, b"DELAY"), Ok(None));
    }
}

/// "Two inputs of equal image and buffer length": the buffer may be longer than the image.
#[test]
fn the_buffer_may_be_longer() {
    let mut buffer = one_trace(&[b"STACK 1"]);
    let length = buffer.len();
    buffer.extend([0xFF; 40]);
    let stack = quick_search(&buffer, length, 0, b"STACK");
    let alone = quick_search(&buffer[..length], length, 0, b"STACK");
    assert_eq!(stack, alone);
    let over = quick_search(&buffer, buffer.len() + 1, 0, b"STACK");
    assert_eq!(over.answer, Err(refusal(1, -1, 0)));
    assert_eq!(over.read, []);
}

// ---- rows

/// Rows 1 to 7 come first, as the full check gives them, for any trace, any key and any
/// question. Row 1 looks at no byte, the others look at the first 32.
#[test]
fn rows_1_to_7() {
    let mut rng = Rng::new(501);
    for way in WAYS.iter().filter(|way| way.number <= 7) {
        for _ in 0..40 {
            let case = damaged(&mut rng, way);
            for trace in [-1, 0, 1, 9_999, i64::MIN, i64::MAX] {
                let answer = asked_in(&case.buffer, case.length, trace, b"STACK");
                assert_eq!(answer, Err(case.expected), "{}", way.name);
                let head = Some(0..32).filter(|_| way.number != 1);
                all_refused(
                    &case.buffer,
                    case.length,
                    trace,
                    case.expected,
                    head.as_slice(),
                );
            }
        }
    }
}

/// "N=0": the reader's row 5, though an addition would take the image.
#[test]
fn without_traces_it_is_5() {
    let mut buffer = vec![0; 100];
    let length = start(&mut buffer, 0, 2, b"UNITS\tMETERS\n").expect("room");
    for trace in [-1, 0, 1] {
        let answer = asked_in(&buffer, length, trace, b"UNITS");
        assert_eq!(answer, Err(refusal(5, -1, 6)));
    }
}

/// "It is asked of traces only": -1 is no trace either.
#[test]
fn row_18() {
    let strings: &[&[u8]] = &[b"STACK 1"];
    let bytes = file_of(Order::High, &[strings, strings]);
    let none = [-1, -2, 2, 3, 65_536, 1 << 32, i64::MIN, i64::MAX];
    let of_32_bits = [i32::MIN, i32::MAX].map(i64::from);
    for trace in none.into_iter().chain(of_32_bits) {
        let search = quick_search(&bytes, bytes.len(), trace, b"STACK");
        let no = refusal(18, -1, 0);
        assert_eq!(search.answer, Err(no));
        let head = 0..32;
        assert_eq!(search.read, std::slice::from_ref(&head));
        all_refused(&bytes, bytes.len(), trace, no, &[head]);
    }
    assert_eq!(
        full(&bytes, bytes.len(), -1, b"UNITS"),
        Ok(Some(&b"METERS"[..]))
    );
}

/// "with 18 between 7 and 8"
#[test]
fn row_18_between_7_and_8() {
    let strings: &[&[u8]] = &[b"STACK 1"];
    let whole = file_of(Order::Low, &[strings, strings]);
    // Every pointer is bad: a trace that is not there is 18, one that is there 8.
    let mut bytes = whole.clone();
    bytes[32..40].fill(0xFF);
    for (trace, number) in [(-1, 18), (2, 18), (0, 8), (1, 8)] {
        assert_eq!(number_of(&asked(&bytes, trace, b"STACK")), number);
        for question in questions(1, 0) {
            let told = quick_answer(&bytes, bytes.len(), trace, &question);
            assert_eq!(number_of(&told), number);
        }
    }
    // 7 comes before it: the image ends inside the pointer room.
    let cut = asked_in(&whole, 39, 2, b"STACK");
    assert_eq!(cut, Err(refusal(7, -1, 4)));
    let cut = asked_in(&whole, 40, 2, b"STACK");
    assert_eq!(cut, Err(refusal(18, -1, 0)));
}

/// "8 here means no multiple of 4, below 32+M, or p+32 past the end", at 32+4k.
#[test]
fn row_8() {
    for order in [Order::Low, Order::High] {
        let strings: &[&[u8]] = &[b"STACK 1"];
        let whole = file_of(order, &[strings; 3]);
        let last = whole.len() - 32;
        for k in 0..3 {
            let p = pointer(&whole, order, k);
            for bad in [p + 1, p + 2, p + 3, 0, 4, 40, 43, last + 4, 0xFFFF_FFFC] {
                let mut bytes = whole.clone();
                put_pointer(&mut bytes, order, k, bad);
                let no = refusal(8, k as i64, 32 + 4 * k);
                assert_eq!(asked(&bytes, k as i64, b"STACK"), Err(no), "{bad}");
                let read = [0..32, 32 + 4 * k..36 + 4 * k];
                all_refused(&bytes, bytes.len(), k as i64, no, &read);
                // No other trace's pointer is looked at.
                let other = (k as i64 + 1) % 3;
                assert_eq!(asked(&bytes, other, b"STACK"), Ok(Some(&b"1"[..])));
            }
            // Both bounds pass, and what stands there is no block.
            for good in [44, last] {
                let mut bytes = whole.clone();
                put_pointer(&mut bytes, order, k, good);
                assert_eq!(number_of(&asked(&bytes, k as i64, b"STACK")), 9, "{good}");
                let read = [0..32, 32 + 4 * k..36 + 4 * k, good..good + 32];
                let no = refusal(9, k as i64, good);
                all_refused(&bytes, bytes.len(), k as i64, no, &read);
            }
        }
    }
}

/// A pointer below the previous trace's end is the full check's 8, and not this one's.
#[test]
fn a_trace_inside_the_previous_ones_data() {
    for order in [Order::Low, Order::High] {
        let inner = file_of(order, &[&[b"STACK 7"]]);
        let block = &inner[pointer(&inner, order, 0)..];
        let outer = PlainTrace {
            strings: &[b"STACK 5"],
            code: 1,
            count: 0,
            data: block,
        };
        let mut bytes = plain_file(order, &[], &[outer, PlainTrace::of_strings(&[])]);
        let inside = bytes.len() - block.len() - 36;
        assert_eq!(asked(&bytes, 1, b"STACK"), Ok(None));
        put_pointer(&mut bytes, order, 1, inside);
        let check = check(&bytes, bytes.len()).map(|_| ());
        assert_eq!(check, Err(refusal(8, 1, 36)));
        assert_eq!(asked(&bytes, 0, b"STACK"), Ok(Some(&b"5"[..])));
        assert_eq!(asked(&bytes, 1, b"STACK"), Ok(Some(&b"7"[..])));
        // Two pointers to one trace, and the later trace first.
        put_pointer(&mut bytes, order, 0, inside);
        assert_eq!(asked(&bytes, 0, b"STACK"), Ok(Some(&b"7"[..])));
    }
}

/// Rows 9 to 13 of the asked trace's block; those of another are not looked at.
#[test]
fn rows_9_to_13() {
    let strings: &[&[u8]] = &[b"STACK 1"];
    let whole = file_of(Order::Low, &[strings; 3]);
    let broken: [(u8, usize, &[u8]); 9] = [
        (9, 0, &[0x44, 0x22]),
        (10, 2, &[28, 0]),
        (10, 2, &[45, 0]),
        (10, 2, &[0xFC, 0xFF]),
        (11, 4, &[2, 0, 0, 0]),
        (11, 4, &[0xFC, 0xFF, 0xFF, 0xFF]),
        (12, 12, &[6]),
        (13, 8, &[1, 0, 0, 0]),
        (13, 8, &[0, 0, 0, 0x80]),
    ];
    for k in 0..3 {
        let p = pointer(&whole, Order::Low, k);
        for (number, at, with) in broken {
            let mut bytes = whole.clone();
            bytes[p + at..p + at + with.len()].copy_from_slice(with);
            let search = quick_search(&bytes, bytes.len(), k as i64, b"STACK");
            let no = refusal(number, k as i64, p + at);
            let read = [0..32, 32 + 4 * k..36 + 4 * k, p..p + 32];
            assert_eq!(search.answer, Err(no));
            assert_eq!(search.read, read);
            all_refused(&bytes, bytes.len(), k as i64, no, &read);
            assert!(check(&bytes, bytes.len()).is_err());
            for other in (0..3).filter(|&other| other != k) {
                let answer = asked(&bytes, other as i64, b"STACK");
                assert_eq!(answer, Ok(Some(&b"1"[..])));
                // Of code 1, so bits are refused, and nothing else.
                let refused = questions(1, 0).into_iter().filter(|question| {
                    quick_answer(&bytes, bytes.len(), other as i64, question).is_err()
                });
                let bits = [Question::Bits { row: 0, classes: 0 }];
                assert!(refused.eq(bits));
            }
        }
    }
    // S no multiple of 4 under code 3.
    let mut bytes = whole.clone();
    let p = pointer(&whole, Order::Low, 1);
    bytes[p + 8] = 2;
    bytes[p + 12] = 3;
    assert_eq!(asked(&bytes, 1, b"STACK"), Err(refusal(13, 1, p + 8)));
    // D has to lie in the image, though no sample is read.
    let last = pointer(&whole, Order::Low, 2);
    let cut = asked_in(&whole, whole.len() - 1, 2, b"STACK");
    assert_eq!(cut, Err(refusal(10, 2, last + 2)));
}

// ---- strings: found, passed, and what stands behind

/// How many of the five a search for the key reads: to the one that is found or passed.
fn reads(key: &[u8]) -> usize {
    let words = FIVE.map(|text| &text[..1]);
    match words.iter().position(|&word| word >= key) {
        Some(i) if key != b"NOTE" => i + 1,
        _ => FIVE.len() + 1,
    }
}

const KEYS: [&[u8]; 14] = [
    b"", b"A", b"B", b"C", b"D", b"E", b"F", b"FF", b"G", b"H", b"I", b"J", b"K", b"NOTE",
];

/// A string before the found or passed one, that one itself, and none behind it.
#[test]
fn strings_are_judged_up_to_the_last_that_is_read() {
    let whole = file_of(Order::Low, &[&[], &FIVE]);
    let (mut refused, mut answered) = (0, 0);
    for (number, i, bytes, place) in broken_strings(&whole, 1) {
        let no = Err(refusal(number, 1, place));
        assert_eq!(check(&bytes, bytes.len()).map(|_| ()), no);
        for key in KEYS {
            let answer = asked(&bytes, 1, key);
            if i < reads(key) {
                assert_eq!(answer, no.map(|()| None), "{number} {i}");
                refused += 1;
            } else {
                assert_eq!(answer, full(&whole, whole.len(), 1, key));
                answered += 1;
            }
        }
        // Trace 0 has no part in it.
        assert_eq!(asked(&bytes, 0, b"A"), Ok(None));
    }
    assert!(refused > 200 && answered > 200, "{refused} {answered}");
}

/// The bytes read, span by span.
#[test]
fn the_bytes_read() {
    let bytes = file_of(Order::Low, &[&[b"STACK 1"], &FIVE]);
    let p = pointer(&bytes, Order::Low, 1);
    let start = p + 32;
    let spans = |key: &[u8]| quick_search(&bytes, bytes.len(), 1, key).read;
    let mut expected: Vec<Range<usize>> = vec![0..32, 36..40, p..start];
    for (i, text) in FIVE.iter().enumerate() {
        expected.push(start + offset(i)..start + offset(i) + text.len() + 3);
        for key in KEYS.iter().filter(|key| reads(key) == i + 1) {
            assert_eq!(spans(key), expected);
        }
    }
    // To the end: its mark, and nothing of what follows it.
    expected.push(start + offset(5)..start + offset(5) + 2);
    for key in [&b"K"[..], b"NOTE", b"\xFF"] {
        assert_eq!(spans(key), expected);
    }
    // An offset that is bad is read alone.
    let place = start + offset(1);
    for bad in [[3, 0], [0, 1], [0xFF, 0xFF]] {
        let mut bytes = bytes.clone();
        bytes[place..place + 2].copy_from_slice(&bad);
        let search = quick_search(&bytes, bytes.len(), 1, b"D");
        assert_eq!(search.answer, Err(refusal(14, 1, place)));
        assert_eq!(search.read[..4], expected[..4]);
        let offset = place..place + 2;
        assert_eq!(search.read[4..], [offset]);
    }
    // The strings that a search has read whole.
    let met = |key: &[u8]| quick_search(&bytes, bytes.len(), 1, key).strings.len();
    assert_eq!([met(b""), met(b"C"), met(b"D"), met(b"K")], [1, 2, 2, 5]);
}

/// "NOTE comes after all others": it ends a search, but for its own.
#[test]
fn note_passes_where_it_is_not_asked_for() {
    let bytes = one_trace(&[b"STACK 1", b"NOTE x"]);
    for key in [&b"UNITS"[..], b"T", b"~", b"\xFF", b"STACKS", b"note"] {
        let search = quick_search(&bytes, bytes.len(), 0, key);
        assert_eq!(search.answer, Ok(None));
        // both strings, and not the end mark
        assert_eq!(search.read.len(), 3 + 2, "{key:?}");
    }
    // So what stands behind NOTE is not judged, but where another string would be.
    let mut texts: Vec<&[u8]> = vec![b"STACK 1", b"NOTE x", b"UNITS m"];
    let bytes = one_trace(&texts);
    assert_eq!(number_of(&check(&bytes, bytes.len())), 17);
    assert_eq!(asked(&bytes, 0, b"UNITS"), Ok(None));
    assert_eq!(asked(&bytes, 0, b"NOTE"), Ok(Some(&b"x"[..])));
    // A NOTE that is broken is judged before it ends anything.
    texts[1] = b"NOTE \x01";
    let bytes = one_trace(&texts);
    for key in [&b"UNITS"[..], b"NOTE", b"STACKS"] {
        assert_eq!(number_of(&asked(&bytes, 0, key)), 16);
    }
    assert_eq!(asked(&bytes, 0, b"STACK"), Ok(Some(&b"1"[..])));
}

/// "NOTE is sought to the end": no keyword passes it, however great.
#[test]
fn note_is_sought_to_the_end() {
    let bytes = one_trace(&[b"DELAY 0", b"NOTES y", b"UNITS m", b"~ z", b"NOTE a\nb"]);
    assert_eq!(asked(&bytes, 0, b"NOTE"), Ok(Some(&b"a\nb"[..])));
    let bytes = one_trace(&[b"DELAY 0", b"NOTES y", b"UNITS m", b"~ z"]);
    let search = quick_search(&bytes, bytes.len(), 0, b"NOTE");
    assert_eq!((search.answer, search.strings.len()), (Ok(None), 4));
    // What is broken anywhere before the end refuses.
    let bytes = one_trace(&[b"DELAY 0", b"UNITS m", b"~ z", b"Z z", b"NOTE a"]);
    assert_eq!(number_of(&asked(&bytes, 0, b"NOTE")), 17);
    assert_eq!(asked(&bytes, 0, b"DELAY"), Ok(Some(&b"0"[..])));
    // Its neighbours are keywords as others are.
    let bytes = one_trace(&[b"NOT 1", b"NOTE_ 2", b"NOTE 3"]);
    for (key, value) in [(&b"NOT"[..], b"1"), (b"NOTE_", b"2"), (b"NOTE", b"3")] {
        assert_eq!(asked(&bytes, 0, key), Ok(Some(&value[..])));
    }
    for key in [&b"NO"[..], b"NOTE!", b"NOTES"] {
        assert_eq!(asked(&bytes, 0, key), Ok(None));
    }
}

/// Every keyword passes the empty key: one string is read.
#[test]
fn the_empty_key() {
    let bytes = one_trace(&[b"! 1", b"A 2"]);
    let search = quick_search(&bytes, bytes.len(), 0, b"");
    assert_eq!((search.answer, search.strings.len()), (Ok(None), 1));
    let bytes = one_trace(&[b"a 1", b"A 2"]);
    assert_eq!(number_of(&asked(&bytes, 0, b"")), 16);
    assert_eq!(asked(&one_trace(&[]), 0, b""), Ok(None));
}

/// "A key that can be no keyword is sought by byte order like others": a no, behind as many
/// strings as stand before it.
#[test]
fn keys_that_can_be_no_keyword() {
    let bytes = one_trace(&[b"B 1", b"STACK 2", b"`x 3", b"~ 4"]);
    // "`x" is none: lower case is refused where the search gets there
    let p = pointer(&bytes, Order::Low, 0) + 32;
    let no = Err(refusal(16, 0, p + 6 + 10));
    for (key, expected) in [
        (&b" B"[..], Ok(None)),
        (b"B ", Ok(None)),
        (b"B\t1", Ok(None)),
        (b"STACK 2", no),
        (b"stack", no),
        (b"\x80", no),
        (b"\xFF\xFF", no),
        (b"\0", Ok(None)),
    ] {
        assert_eq!(asked(&bytes, 0, key), expected, "{key:?}");
    }
    let bytes = one_trace(&[b"B 1", b"STACK 2", b"~ 4"]);
    for (key, read) in [
        (&b"\0"[..], 1),
        (b" B", 1),
        (b"B ", 2),
        (b"STACK 2", 3),
        (b"stack", 3),
        (b"\x7F", 3),
        (b"\xFF", 3),
    ] {
        let search = quick_search(&bytes, bytes.len(), 0, key);
        assert_eq!((search.answer, search.strings.len()), (Ok(None), read));
    }
}

/// Document 02, §1: "A keyword question answers the first." What runs behind it is not
/// looked at, and a string that may not follow is 17.
#[test]
fn the_first_of_several() {
    for word in ["RECEIVER_GEOMETRY", "SOURCE_GEOMETRY"] {
        let texts = [1, 2, 3].map(|i| format!("{word} {i}"));
        let [one, two, three] = texts.each_ref().map(|text| text.as_bytes());
        let key = word.as_bytes();
        let bytes = one_trace(&[b"DELAY 0", one, two, three, b"UNITS m"]);
        let search = quick_search(&bytes, bytes.len(), 0, key);
        assert_eq!(search.strings.len(), 2);
        assert_eq!(asked(&bytes, 0, key), Ok(Some(&b"1"[..])));
        assert_eq!(asked(&bytes, 0, b"UNITS"), Ok(Some(&b"m"[..])));
        // One that does not run, behind the first: only who goes on meets it.
        let bytes = one_trace(&[one, b"STACK 1", b"Q x", two]);
        assert_eq!(asked(&bytes, 0, key), Ok(Some(&b"1"[..])));
        assert_eq!(number_of(&asked(&bytes, 0, b"UNITS")), 17);
    }
    let bytes = one_trace(&[b"STACK 1", b"STACK 2"]);
    assert_eq!(asked(&bytes, 0, b"STACK"), Ok(Some(&b"1"[..])));
    assert_eq!(number_of(&asked(&bytes, 0, b"T")), 17);
}

/// "An empty area is an empty list"; an end mark ends it, whatever follows.
#[test]
fn ends_of_areas() {
    let empty = file_of_area(&[]);
    for key in [&b""[..], b"STACK", b"NOTE"] {
        let search = quick_search(&empty, empty.len(), 0, key);
        assert_eq!(search.answer, Ok(None));
        assert_eq!(search.read, [0..32, 32..36, 40..72]);
    }
    let junk = file_of_area(&[0, 0, 0xFF, 0xFF, 1, 0, 7, 7]);
    for key in [&b""[..], b"STACK", b"NOTE"] {
        let search = quick_search(&junk, junk.len(), 0, key);
        assert_eq!(search.answer, Ok(None));
        let mark = 72..74;
        assert_eq!(search.read[3..], [mark]);
    }
}

/// "A missing end mark is an offset that is not in the area": 14 where the search gets
/// there, and none where it has ended before.
#[test]
fn no_end_mark() {
    for left in [0, 1] {
        let (bytes, place) = without_end_mark(left);
        let no = Err(refusal(14, 0, place));
        assert_eq!(check(&bytes, bytes.len()).map(|_| ()), no);
        for key in [&b"V"[..], b"NOTE", b"\xFF"] {
            let search = quick_search(&bytes, bytes.len(), 0, key);
            assert_eq!(search.answer, no.map(|()| None));
            // fewer than two bytes are left: none of them is read
            let end = search.read.last().map(|part| part.end);
            assert_eq!(end, Some(place));
        }
        for key in [&b"STACK"[..], b"UNITS", b"A", b"T", b"UNIT"] {
            assert!(asked(&bytes, 0, key).is_ok());
        }
    }
}

/// 34 judges a trace beside trace 0: it is not given, and a CHANNEL_NUMBER is answered
/// whatever it holds.
#[test]
fn row_34_is_never_given() {
    let with: &[&[u8]] = &[b"CHANNEL_NUMBER 7", b"STACK 1"];
    let bad: &[&[u8]] = &[b"CHANNEL_NUMBER x", b"STACK 1"];
    let none: &[&[u8]] = &[b"STACK 1"];
    for traces in [[with, none], [none, with], [bad, bad], [with, bad]] {
        let bytes = file_of(Order::Low, &traces);
        assert_eq!(number_of(&check(&bytes, bytes.len())), 34);
        for (k, strings) in traces.iter().enumerate() {
            let value = strings[0].strip_prefix(b"CHANNEL_NUMBER ");
            assert_eq!(asked(&bytes, k as i64, b"CHANNEL_NUMBER"), Ok(value));
            assert_eq!(asked(&bytes, k as i64, b"STACK"), Ok(Some(&b"1"[..])));
        }
    }
}

/// Neither the file's own strings nor other traces are looked at.
#[test]
fn nothing_else_is_looked_at() {
    let strings: &[&[u8]] = &[b"STACK 1"];
    let whole = file_of(Order::High, &[strings; 3]);
    let kept = |k: usize| {
        let p = pointer(&whole, Order::High, k);
        [0..32, 32 + 4 * k..36 + 4 * k, p..p + 32 + 10]
    };
    for k in 0..3 {
        for junk in [0x00, 0x5A, 0xFF] {
            let mut bytes = vec![junk; whole.len()];
            for part in kept(k) {
                bytes[part.clone()].copy_from_slice(&whole[part]);
            }
            assert_eq!(asked(&bytes, k as i64, b"STACK"), Ok(Some(&b"1"[..])));
            assert_eq!(asked(&bytes, k as i64, b"A"), Ok(None));
        }
    }
}

// ---- generated files

/// "On every file that the full check accepts, the answer equals the full one."
#[test]
fn accepted_files_answer_as_the_full_question() {
    let mut rng = Rng::new(502);
    let (mut yes, mut no) = (0, 0);
    for _ in 0..1500 {
        let laid = Model::random(&mut rng).lay();
        let (buffer, length) = (&laid.buffer[..], laid.length);
        for k in 0..i64::from(laid.file.n) {
            let words: Vec<Vec<u8>> = laid
                .strings(k)
                .iter()
                .map(|s| buffer[s.keyword.clone()].to_vec())
                .collect();
            let near = (0..12).map(|_| quick_key(&mut rng, &words));
            let keys: BTreeSet<Vec<u8>> = near.chain(words.clone()).collect();
            for key in keys {
                let answer = asked_in(buffer, length, k, &key);
                assert_eq!(answer, full(buffer, length, k, &key));
                match answer {
                    Ok(Some(_)) => yes += 1,
                    _ => no += 1,
                }
            }
        }
        for trace in [i64::from(laid.file.n), -2, i64::MAX] {
            let answer = asked_in(buffer, length, trace, b"STACK");
            assert_eq!(answer, full(buffer, length, trace, b"STACK"));
        }
        assert_eq!(
            asked_in(buffer, length, -1, b"UNITS"),
            Err(refusal(18, -1, 0))
        );
    }
    assert!(yes > 5_000 && no > 5_000, "{yes} {no}");
}

/// The keyword of a question, if it is a keyword's.
fn key_of(asked: &QuickAsked) -> Option<&[u8]> {
    match &asked.question {
        Question::Keyword { key } => Some(key),
        _ => None,
    }
}

/// Cases whose answer and whose bytes the layout tells.
#[test]
fn generated_questions() {
    let mut rng = Rng::new(503);
    let mut met: BTreeMap<u8, usize> = BTreeMap::new();
    let mut names: BTreeMap<&str, usize> = BTreeMap::new();
    let (mut yes, mut no, mut apart) = (0, 0, 0);
    for _ in 0..60_000 {
        let case = quick_case(&mut rng);
        let (buffer, length) = (&case.buffer[..], case.length);
        for asked in &case.asked {
            let Some(key) = key_of(asked) else {
                continue;
            };
            let search = quick_search(buffer, length, case.trace, key);
            let found = search.answer.map(|string| string.map(|s| s.value));
            let told = found.clone().map(QuickTold::Keyword);
            assert_eq!(told, asked.expected, "{}", case.name);
            assert_eq!(search.read, asked.read, "{}", case.name);
            *met.entry(number_of(&found)).or_insert(0) += 1;
            *names.entry(case.name).or_insert(0) += 1;
            yes += usize::from(matches!(found, Ok(Some(_))));
            no += usize::from(matches!(found, Ok(None)));
            apart += usize::from(found.is_ok() && check(buffer, length).is_err());
        }
    }
    // Every row but 34, and every way of damage, often.
    assert!(met.keys().copied().eq(0..=18), "{met:?}");
    assert!(met.values().all(|&times| times > 20), "{met:?}");
    let ways = WAYS.iter().filter(|way| way.scope != Scope::Image);
    for name in ways.map(|way| way.name).chain([
        "a file",
        "pointers in another order",
        "data that reach over other traces",
        "junk beside what is read",
    ]) {
        assert!(names.get(name).is_some_and(|&n| n > 20), "{name}");
    }
    assert!(
        yes > 5_000 && no > 5_000 && apart > 5_000,
        "{yes} {no} {apart}"
    );
}

/// "Two inputs .. that agree on these bytes get the same answer, refusals and places
/// included": any byte beside them changed, one at a time and all at once, of every question.
#[test]
fn other_bytes_change_nothing() {
    let mut rng = Rng::new(504);
    let (mut outside, mut inside) = (0, 0);
    for _ in 0..400 {
        let case = quick_case(&mut rng);
        if case.buffer.len() > 700 {
            continue;
        }
        for asked in &case.asked {
            let answer = |bytes: &[u8]| {
                let (length, trace) = (case.length, case.trace);
                let told = quick_answer(bytes, length, trace, &asked.question);
                let read = quick_read(bytes, length, trace, &asked.question);
                let search = key_of(asked).map(|key| quick_search(bytes, length, trace, key));
                (told, read, search)
            };
            let told = answer(&case.buffer);
            let read: BTreeSet<usize> = told.1.iter().cloned().flatten().collect();
            let mut bytes = case.buffer.clone();
            for at in 0..bytes.len() {
                for mask in [0xFF, 0x01] {
                    bytes[at] ^= mask;
                    let same = answer(&bytes) == told;
                    bytes[at] ^= mask;
                    assert!(same || read.contains(&at), "{} at {at}", case.name);
                    outside += usize::from(!read.contains(&at));
                    inside += usize::from(!same);
                }
            }
            let mut other = rng.junk(bytes.len());
            for &at in &read {
                other[at] = bytes[at];
            }
            assert_eq!(answer(&other), told);
        }
    }
    assert!(outside > 300_000 && inside > 30_000, "{outside} {inside}");
}

/// Whatever comes: an answer, and of the full check's refusals none behind the asked trace.
#[test]
fn mutations_never_panic() {
    let mut rng = Rng::new(505);
    let mut apart = 0;
    for _ in 0..20_000 {
        let (buffer, length) = mutated(&mut rng);
        let any = rng.bits() as i64;
        let trace = rng.pick(&[-1, 0, 0, 1, 2, any]);
        let count = rng.between(0, 6);
        let junk = rng.junk(count);
        let key = rng.pick(&[b"STACK".to_vec(), b"NOTE".to_vec(), Vec::new(), junk]);
        let answer = asked_in(&buffer, length, trace, &key);
        let checked = check(&buffer, length);
        match (&answer, &checked) {
            // Where the whole file keeps the rules, the two say the same.
            (_, Ok(_)) if trace >= 0 => assert_eq!(answer, full(&buffer, length, trace, &key)),
            // Rows 1 to 7 are the same rows.
            (_, Err(row)) if row.number <= 7 => assert_eq!(answer, Err(*row)),
            (Ok(_), Err(_)) => apart += 1,
            (Err(row), _) => assert!(matches!(row.number, 8..=18)),
            (Ok(_), Ok(_)) => panic!("-1 is no trace"),
        }
    }
    assert!(apart > 500, "{apart}");
}
