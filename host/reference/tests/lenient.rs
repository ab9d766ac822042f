//! Document 02, §11: older recorders. What the lenient reading forgives and what it does not,
//! the strict verdict beside it, and that the generated old files reach all of it.

mod common;

use common::{
    file, file_of, file_of_area, number_of, one_trace, pointer, refusal, string, trace,
    without_end_mark,
};
use seg2_reference::generate::*;
use seg2_reference::*;
use std::collections::BTreeMap;

/// Number, part and place of a strict row, or none.
type Strict = Option<(u8, i64, usize)>;

fn row(told: Strict) -> Option<Refusal> {
    told.map(|(number, part, place)| refusal(number, part, place))
}

/// The check's two verdicts of a whole buffer.
fn verdicts(bytes: &[u8]) -> (Option<Refusal>, Option<Refusal>) {
    let told = lenient_check(bytes, bytes.len());
    assert_eq!(told.strict, check(bytes, bytes.len()).err());
    (told.answer.err(), told.strict)
}

/// The lenient check accepts, and the strict one gives this row.
fn forgiven(bytes: &[u8], strict: Strict) {
    assert_eq!(verdicts(bytes), (None, row(strict)));
}

/// Keywords and values of a part as they stand.
fn texts(bytes: &[u8], part: i64) -> Vec<(String, String)> {
    let count = lenient_string_count(bytes, bytes.len(), part);
    let count = count.answer.expect("accepted");
    let mut numbers = vec![0; 4 * count];
    let all = lenient_strings(bytes, bytes.len(), part, &mut numbers);
    assert_eq!(all.answer, Ok(()));
    let text = |start: usize, size: usize| {
        String::from_utf8(bytes[start..start + size].to_vec()).expect("text")
    };
    let mut texts = Vec::new();
    for (i, four) in numbers.chunks(4).enumerate() {
        let string = lenient_string(bytes, bytes.len(), part, i).answer;
        let string = string.expect("accepted").expect("there");
        assert_eq!(string.numbers(), four);
        texts.push((text(four[0], four[1]), text(four[2], four[3])));
    }
    let past = lenient_string(bytes, bytes.len(), part, count).answer;
    assert_eq!(past, Ok(None));
    texts
}

fn pairs(of: &[(&str, &str)]) -> Vec<(String, String)> {
    let owned = |(key, value): &(&str, &str)| (key.to_string(), value.to_string());
    of.iter().map(owned).collect()
}

/// The value of a keyword, nothing for a no; the three calls that find it say the same.
fn value<'a>(bytes: &'a [u8], part: i64, key: &[u8]) -> Option<&'a [u8]> {
    let length = bytes.len();
    let found = lenient_keyword_string(bytes, length, part, key).answer;
    let found = found.expect("accepted").map(|string| string.value);
    let yes = lenient_keyword(bytes, length, part, key);
    assert_eq!(yes.answer, Ok(found.is_some()));
    let place = lenient_value(bytes, length, part, key).answer;
    assert_eq!(place, Ok(found.clone().unwrap_or(0..0)));
    found.map(|range| &bytes[range])
}

// ---- the three points

/// "it takes lower-case keyword letters as upper case", where it is compared with what is asked
/// for; where it stands the bytes are as they were.
#[test]
fn letters_of_any_kind() {
    for order in [Order::Low, Order::High] {
        let strings: &[&[u8]] = &[b"Client a", b"delay 1", b"sTACK 10", b"UNITS MeTers"];
        let bytes = file_of(order, &[strings]);
        let p = pointer(&bytes, order, 0);
        forgiven(&bytes, Some((16, 0, p + 32)));
        let expected = [
            ("Client", "a"),
            ("delay", "1"),
            ("sTACK", "10"),
            ("UNITS", "MeTers"),
        ];
        assert_eq!(texts(&bytes, 0), pairs(&expected));
        for (key, text) in [
            (&b"CLIENT"[..], &b"a"[..]),
            (b"DELAY", b"1"),
            (b"STACK", b"10"),
            (b"UNITS", b"MeTers"),
        ] {
            assert_eq!(value(&bytes, 0, key), Some(text));
        }
        // What is asked for is taken as given, though it is how the keyword stands there.
        for key in [&b"delay"[..], b"Client", b"sTACK", b"Units", b"DELAYS", b""] {
            assert_eq!(value(&bytes, 0, key), None);
        }
    }
}

/// 97 to 122 alone: their neighbours are characters of their own.
#[test]
fn neighbours_of_the_letters() {
    let bytes = one_trace(&[b"az 1", b"`{ 2", b"@[ 3"]);
    forgiven(&bytes, Some((16, 0, pointer(&bytes, Order::Low, 0) + 32)));
    for (key, text) in [(&b"AZ"[..], &b"1"[..]), (b"`{", b"2"), (b"@[", b"3")] {
        assert_eq!(value(&bytes, 0, key), Some(text));
    }
    for key in [&b"az"[..], b"@{", b"`["] {
        assert_eq!(value(&bytes, 0, key), None);
    }
}

/// Every byte in a keyword, alone, first, in the middle and last; and in a value.
#[test]
fn every_character() {
    for byte in 0..=255_u8 {
        let keyword = matches!(byte, 33..=126);
        // Behind a letter a blank ends the keyword.
        let blank = matches!(byte, 9 | 32);
        for (text, good) in [
            (vec![byte], keyword),
            (vec![byte, b'B'], keyword),
            (vec![b'A', byte, b'B'], keyword || blank),
            (vec![b'A', byte], keyword || blank),
            (vec![b'a', b' ', b'b', byte, b'c'], keyword || blank),
        ] {
            let bytes = one_trace(&[&text]);
            let p = pointer(&bytes, Order::Low, 0);
            let (lenient, strict) = verdicts(&bytes);
            let expected = (!good).then(|| refusal(16, 0, p + 32));
            assert_eq!(lenient, expected, "{text:?}");
            let word = text.split(|c| b" \t".contains(c)).next().expect("one");
            let strictly = good && !word.iter().any(u8::is_ascii_lowercase);
            assert_eq!(strict.is_none(), strictly, "{text:?}");
        }
    }
}

/// "accepts any order and repeats": count and index have them all, as they stand; a question
/// answers the first, whatever letters the others have.
#[test]
fn any_order_and_repeats() {
    let strings: &[&[u8]] = &[
        b"UNITS m", b"STACK 1", b"DELAY 0", b"Stack 2", b"STACK 3", b"delay", b"UNITS m",
    ];
    let bytes = file_of(Order::High, &[&[], strings]);
    let p = pointer(&bytes, Order::High, 1);
    forgiven(&bytes, Some((17, 1, p + 32 + 10)));
    let expected = [
        ("UNITS", "m"),
        ("STACK", "1"),
        ("DELAY", "0"),
        ("Stack", "2"),
        ("STACK", "3"),
        ("delay", ""),
        ("UNITS", "m"),
    ];
    assert_eq!(texts(&bytes, 1), pairs(&expected));
    assert_eq!(value(&bytes, 1, b"STACK"), Some(&b"1"[..]));
    assert_eq!(value(&bytes, 1, b"DELAY"), Some(&b"0"[..]));
    let first = lenient_value(&bytes, bytes.len(), 1, b"UNITS").answer;
    assert_eq!(first, Ok(p + 32 + 8..p + 32 + 9));
    // The first in lower case, an empty one, and the last of all.
    let bytes = one_trace(&[b"stack", b"STACK 5"]);
    assert_eq!(value(&bytes, 0, b"STACK"), Some(&b""[..]));
    let bytes = one_trace(&[b"B 1", b"A 2"]);
    assert_eq!(value(&bytes, 0, b"A"), Some(&b"2"[..]));
}

/// "and ends a list where no byte of the area is left"; one byte left is still 14, at its own
/// place. In a trace and in the file itself.
#[test]
fn no_byte_left() {
    let (bytes, end) = without_end_mark(0);
    forgiven(&bytes, Some((14, 0, end)));
    let expected = [("STACK", "1"), ("UNITS", "mmmmm")];
    assert_eq!(texts(&bytes, 0), pairs(&expected));
    let (bytes, left) = without_end_mark(1);
    let no = Some(refusal(14, 0, left));
    assert_eq!(verdicts(&bytes), (no, no));
    for (text, left, lenient) in [(&b"UNITS"[..], 0, None), (b"UNIT", 1, Some(43))] {
        let mut area = string(text, &[0]);
        area.extend(vec![0; left]);
        let bytes = file(&[0], &[0x0A], &area, &trace(&[0; 4], 1, 0, &[]));
        let strict = Some(refusal(14, -1, 36 + area.len() - left));
        let lenient = lenient.map(|place| refusal(14, -1, place));
        assert_eq!(verdicts(&bytes), (lenient, strict));
    }
    // Two bytes left are an offset.
    let area = [&string(b"UNI", &[0])[..], &[1, 0]].concat();
    let bytes = file(&[0], &[0x0A], &area, &trace(&[0; 4], 1, 0, &[]));
    let no = Some(refusal(14, -1, 42));
    assert_eq!(verdicts(&bytes), (no, no));
}

/// "An empty area is an empty list", and an offset of 0 ends one: what follows is ignored.
#[test]
fn other_ends_as_before() {
    for area in [&[][..], &[0, 0, 0, 0], &[0, 0, 1, 0], &[0, 0, 0xFF, 0xFF]] {
        let bytes = file_of_area(area);
        forgiven(&bytes, None);
        assert_eq!(texts(&bytes, 0), []);
    }
    let stack = string(b"stack 1", &[0]);
    let bytes = file_of_area(&[&stack[..], &[0, 0], b"no list"].concat()[..16]);
    forgiven(&bytes, Some((16, 0, 72)));
    assert_eq!(texts(&bytes, 0), pairs(&[("stack", "1")]));
    // A string that would reach past the area is 14 as before.
    let long = [&[13, 0][..], &stack[2..], &[0, 0]].concat();
    let no = Some(refusal(14, 0, 72));
    assert_eq!(verdicts(&file_of_area(&long)), (no, no));
}

/// `note` is NOTE: its value may hold whole line terminators, anywhere in the list and often.
#[test]
fn notes_in_any_letters() {
    let strings: &[&[u8]] = &[
        b"note a\nb",
        b"UNITS m",
        b"Note\tc\n\nd",
        b"NOTE e",
        b"STACK 1",
    ];
    let bytes = one_trace(strings);
    let p = pointer(&bytes, Order::Low, 0);
    forgiven(&bytes, Some((16, 0, p + 32)));
    assert_eq!(value(&bytes, 0, b"NOTE"), Some(&b"a\nb"[..]));
    assert_eq!(value(&bytes, 0, b"note"), None);
    assert_eq!(texts(&bytes, 0)[2], ("Note".into(), "c\n\nd".into()));
    // NOTE itself in the middle, and twice.
    for strings in [
        [&b"NOTE a\nb"[..], b"STACK 1"],
        [b"NOTE a\nb", b"NOTE c\nd"],
    ] {
        let bytes = one_trace(&strings);
        forgiven(&bytes, Some((17, 0, p + 32 + strings[0].len() + 3)));
        assert_eq!(value(&bytes, 0, b"NOTE"), Some(&b"a\nb"[..]));
    }
    // No other keyword holds them, and NOTE no half of one.
    for text in [
        &b"notes a\nb"[..],
        b"not a\nb",
        b"nope a\nb",
        b"note a\rb",
        b"note\na",
    ] {
        let no = Some(refusal(16, 0, p + 32));
        assert_eq!(verdicts(&one_trace(&[text])), (no, no), "{text:?}");
    }
    for (text, good) in [
        (&b"note a\r\nb\r\n"[..], true),
        (b"note a\n\rb", false),
        (b"note a\r", false),
        (b"note a\rb", false),
    ] {
        let mut area = string(text, &[3]);
        area.extend([0, 0]);
        area.resize(area.len().next_multiple_of(4), 0);
        let bytes = file(&[3], b"\r\n", &area, &trace(&[0; 4], 1, 0, &[]));
        let no = refusal(16, -1, 36);
        let lenient = (!good).then_some(no);
        assert_eq!(verdicts(&bytes), (lenient, Some(no)), "{text:?}");
    }
}

/// Letters are folded in keywords alone: a value is what it is.
#[test]
fn values_as_they_stand() {
    let bytes = one_trace(&[b"Delay 1E3", b"Stack 1e3", b"Source_Location 1 2E0 -3.50"]);
    let length = bytes.len();
    let number = |key: &[u8]| lenient_number(&bytes, length, 0, key).answer;
    assert_eq!(
        number(b"DELAY").map(|n| (n.coefficient, n.power)),
        Ok((1, 3))
    );
    assert_eq!(number(b"STACK"), Err(refusal(20, -1, 0)));
    assert_eq!(number(b"delay"), Err(refusal(20, -1, 0)));
    assert_eq!(
        lenient_double(&bytes, length, 0, b"DELAY").answer,
        Ok(1000.0)
    );
    let place = lenient_location(&bytes, length, 0, b"SOURCE_LOCATION").answer;
    let place = place.expect("three values");
    assert_eq!(
        (place.count, place.x, place.y, place.z),
        (3, 1.0, 2.0, -3.5)
    );
    assert_eq!(place.decimals, [0, 0, 2]);
}

/// "34 is never given": channel numbers in some traces only, bad ones, two of them; the answer
/// is their value all the same.
#[test]
fn channel_numbers_are_not_asked() {
    let with: &[&[u8]] = &[b"CHANNEL_NUMBER 7"];
    let bad: &[&[u8]] = &[b"CHANNEL_NUMBER x"];
    let lower: &[&[u8]] = &[b"channel_number 7"];
    let twice: &[&[u8]] = &[b"CHANNEL_NUMBER 7", b"CHANNEL_NUMBER 8"];
    let none: &[&[u8]] = &[];
    for (traces, number, k) in [
        ([with, none, with], 34, 1),
        ([none, none, with], 34, 2),
        ([bad, bad, bad], 34, 0),
        ([with, with, bad], 34, 2),
        ([lower, with, with], 16, 0),
        ([with, lower, with], 16, 1),
    ] {
        let bytes = file_of(Order::Low, &traces);
        let p = pointer(&bytes, Order::Low, k);
        forgiven(&bytes, Some((number, k as i64, p + 32)));
        for (k, strings) in traces.iter().enumerate() {
            let text = strings.first().map(|text| &text[15..]);
            assert_eq!(value(&bytes, k as i64, b"CHANNEL_NUMBER"), text);
        }
    }
    let bytes = file_of(Order::Low, &[twice, none]);
    let p = pointer(&bytes, Order::Low, 0);
    forgiven(&bytes, Some((17, 0, p + 32 + 19)));
    assert_eq!(value(&bytes, 0, b"CHANNEL_NUMBER"), Some(&b"7"[..]));
    forgiven(&file_of(Order::Low, &[with, with]), None);
}

// ---- both verdicts

/// A file whose own strings and whose traces are given, with the places of their areas.
fn three_parts(parts: [&[&[u8]]; 3]) -> (Vec<u8>, [usize; 3]) {
    let traces = [parts[1], parts[2]].map(PlainTrace::of_strings);
    let bytes = plain_file(Order::Low, parts[0], &traces);
    let [first, second] = [0, 1].map(|k| pointer(&bytes, Order::Low, k) + 32);
    (bytes, [40, first, second])
}

/// The strict check meets a forgiven row first, the lenient one another row later.
#[test]
fn another_row_behind_a_forgiven_one() {
    let good: &[&[u8]] = &[b"A 1", b"B 2"];
    for (forgiven, number, at) in [
        ([&b"a 1"[..], b"B 2"], 16, 0),
        ([b"A 1", b"A 2"], 17, 6),
        ([b"B 1", b"A 2"], 17, 6),
        ([b"NOTE", b"Z 2"], 17, 7),
    ] {
        for later in [&[&b"A\x01 1"[..]][..], &[b"A \x7F"], &[b" A"], &[b"a \n"]] {
            // In the file and trace 1, in trace 0 and trace 1, in the file and trace 0.
            for (parts, from, to) in [
                ([&forgiven[..], good, later], 0, 2),
                ([good, &forgiven[..], later], 1, 2),
                ([&forgiven[..], later, good], 0, 1),
            ] {
                let (bytes, places) = three_parts(parts);
                let part = |i: usize| i as i64 - 1;
                let lenient = refusal(16, part(to), places[to]);
                let strict = refusal(number, part(from), places[from] + at);
                assert_eq!(verdicts(&bytes), (Some(lenient), Some(strict)));
            }
        }
        // Behind it in the same part.
        let strings = [forgiven[0], forgiven[1], b"C \x7F"];
        let (bytes, places) = three_parts([good, &strings, good]);
        let lenient = refusal(16, 0, places[1] + forgiven.concat().len() + 6);
        let strict = refusal(number, 0, places[1] + at);
        assert_eq!(verdicts(&bytes), (Some(lenient), Some(strict)));
        // Rows 8 to 13 of a later trace.
        let (bytes, places) = three_parts([&forgiven, good, good]);
        let strict = refusal(number, -1, places[0] + at);
        let p = places[2] - 32;
        for (at, with, row, place) in [
            (36, 1, 8, 36),
            (p, 0, 9, p),
            (p + 2, 28, 10, p + 2),
            (p + 4, 1, 11, p + 4),
            (p + 12, 6, 12, p + 12),
            (p + 8, 1, 13, p + 8),
            (p + 32, 3, 14, p + 32),
            (p + 37, 7, 15, p + 32),
        ] {
            let mut bytes = bytes.clone();
            bytes[at] = with;
            let lenient = refusal(row, 1, place);
            assert_eq!(verdicts(&bytes), (Some(lenient), Some(strict)), "{row}");
        }
    }
    // 34 of trace 1, and 14 of a full area, before a row of trace 2.
    let channel: &[&[u8]] = &[b"CHANNEL_NUMBER 1"];
    let bytes = file_of(Order::Low, &[&[], channel, &[b"A \x7F"]]);
    let [p, q] = [1, 2].map(|k| pointer(&bytes, Order::Low, k) + 32);
    let told = (Some(refusal(16, 2, q)), Some(refusal(34, 1, p)));
    assert_eq!(verdicts(&bytes), told);
    let (mut bytes, end) = without_end_mark(0);
    bytes[36] = 3;
    let told = (Some(refusal(14, -1, 36)), Some(refusal(14, -1, 36)));
    assert_eq!(verdicts(&bytes), told);
    bytes[36] = 0;
    assert_eq!(verdicts(&bytes), (None, Some(refusal(14, 0, end))));
}

/// Each row of the check in each of its ways: forgiven, or by both readings the same.
#[test]
fn every_way_by_both_readings() {
    let mut rng = Rng::new(1101);
    let mut met: BTreeMap<(u8, u8), usize> = BTreeMap::new();
    for way in WAYS.iter().filter(|way| way.scope != Scope::Image) {
        for _ in 0..60 {
            let case = damaged(&mut rng, way);
            let told = lenient_check(&case.buffer, case.length);
            assert_eq!(told.strict, Some(case.expected));
            match &told.answer {
                Ok(_) => assert!(way.forgiven, "{}", way.name),
                // A NOTE of several lines that is none any more.
                Err(row) if way.forgiven => assert_eq!((*row, row.number), (case.expected, 16)),
                Err(row) => assert_eq!(*row, case.expected, "{}", way.name),
            }
            let pair = (case.expected.number, number_of(&told.answer));
            *met.entry(pair).or_insert(0) += 1;
        }
    }
    for number in (1..=17).chain([34]) {
        let [kept, forgiven] = [number, 0].map(|lenient| met.contains_key(&(number, lenient)));
        assert_eq!(kept, number <= 16, "{number}: {met:?}");
        assert_eq!(forgiven, matches!(number, 14 | 16 | 17 | 34), "{number}");
    }
}

/// The strict verdict stands beside a question's own refusal, and lent rows are as they were.
#[test]
fn beside_a_questions_own_rows() {
    let strings: &[&[u8]] = &[
        b"A x",
        b"B 1234567890123456789",
        b"C 1E30",
        b"D 1 2",
        b"E 1 2 3,5",
    ];
    let old: &[&[u8]] = &[b"a 1"];
    let of = |own: &[&[u8]]| {
        let samples = |code| PlainTrace {
            strings,
            code,
            count: 2,
            data: &[1, 0, 2, 0, 0, 0, 0, 0],
        };
        plain_file(Order::Low, own, &[samples(1), samples(4)])
    };
    for (bytes, strict) in [(of(&[]), None), (of(old), Some(refusal(16, -1, 40)))] {
        let length = bytes.len();
        fn told<T: PartialEq + std::fmt::Debug>(
            answer: Lenient<T>,
            row: (u8, usize),
            strict: Option<Refusal>,
        ) {
            let no = Err(refusal(row.0, -1, row.1));
            assert_eq!((answer.answer, answer.strict), (no, strict));
        }
        for none in [-2, 2, 3, i64::MIN, i64::MAX] {
            let no = (18, 0);
            told(lenient_trace_block(&bytes, length, none), no, strict);
            told(lenient_string_count(&bytes, length, none), no, strict);
            told(lenient_string(&bytes, length, none, 0), no, strict);
            told(
                lenient_strings(&bytes, length, none, &mut [7; 3]),
                no,
                strict,
            );
            told(lenient_keyword(&bytes, length, none, b"A"), no, strict);
            told(lenient_value(&bytes, length, none, b"A"), no, strict);
            told(lenient_number(&bytes, length, none, b"A"), no, strict);
            told(lenient_double(&bytes, length, none, b"A"), no, strict);
            told(lenient_location(&bytes, length, none, b"A"), no, strict);
            told(
                lenient_integers(&bytes, length, none, &mut [7; 2]),
                no,
                strict,
            );
            let bits = lenient_bits(&bytes, length, none, &mut [7; 2], &mut [7; 2]);
            told(bits, no, strict);
        }
        told(lenient_trace_block(&bytes, length, -1), (18, 0), strict);
        for (key, row) in [(b"A", 20), (b"B", 21), (b"F", 20), (b"a", 20)] {
            told(lenient_number(&bytes, length, 0, key), (row, 0), strict);
            told(lenient_double(&bytes, length, 0, key), (row, 0), strict);
        }
        told(lenient_double(&bytes, length, 0, b"C"), (22, 0), strict);
        told(lenient_location(&bytes, length, 0, b"C"), (22, 0), strict);
        told(lenient_location(&bytes, length, 0, b"D"), (23, 0), strict);
        told(lenient_location(&bytes, length, 0, b"E"), (20, 4), strict);
        told(lenient_location(&bytes, length, 0, b"F"), (23, 0), strict);
        let (mut numbers, mut row) = ([7; 19], [7; 2]);
        told(
            lenient_strings(&bytes, length, 0, &mut numbers),
            (32, 0),
            strict,
        );
        told(
            lenient_integers(&bytes, length, 0, &mut row[..1]),
            (32, 0),
            strict,
        );
        told(
            lenient_integers(&bytes, length, 1, &mut row),
            (33, 0),
            strict,
        );
        let (mut bits, mut classes) = ([7; 2], [7; 2]);
        let answer = lenient_bits(&bytes, length, 0, &mut bits, &mut classes);
        told(answer, (33, 0), strict);
        let answer = lenient_bits(&bytes, length, 1, &mut bits, &mut classes[..1]);
        told(answer, (32, 0), strict);
        assert_eq!(
            (numbers, row, bits, classes),
            ([7; 19], [7; 2], [7; 2], [7; 2])
        );
        // And beside what is answered.
        let answer = lenient_integers(&bytes, length, 0, &mut row);
        assert_eq!(
            (answer.answer, answer.strict, row),
            (Ok(()), strict, [1, 2])
        );
        let answer = lenient_file_block(&bytes, length);
        assert_eq!((answer.answer.map(|b| b.n), answer.strict), (Ok(2), strict));
    }
}

/// "Adding to a file still needs the strict check."
#[test]
fn additions_stay_strict() {
    let mut rng = Rng::new(1102);
    let mut refused = 0;
    for _ in 0..400 {
        let case = old_case(&mut rng);
        let mut buffer = case.buffer.clone();
        buffer.resize(buffer.len() + 200, 7);
        let before = buffer.clone();
        let answer = add_integers(&mut buffer, case.length, b"", 1, &[1, 2]);
        // An addition takes files without traces, and a longer buffer.
        let strict = case.strict.filter(|row| !matches!(row.number, 1 | 5));
        if let Some(row) = strict {
            assert_eq!((answer, buffer == before), (Err(row), true));
            refused += 1;
        }
    }
    assert!(refused > 200, "{refused}");
}

// ---- generated files

/// "It answers the same strings as the strict reading on each strictly accepted file": every
/// answer is the strict one, and none is told beside it.
#[test]
fn strictly_accepted_files() {
    fn same<T: PartialEq + std::fmt::Debug>(lenient: Lenient<T>, strict: Result<T, Refusal>) {
        assert_eq!((lenient.answer, lenient.strict), (strict, None));
    }
    let mut rng = Rng::new(1103);
    for _ in 0..600 {
        let laid = Model::random(&mut rng).lay();
        let (bytes, length) = (&laid.buffer[..], laid.length);
        same(lenient_check(bytes, length), check(bytes, length));
        same(lenient_file_block(bytes, length), file_block(bytes, length));
        for part in (-2..=i64::from(laid.file.n)).take(6) {
            let there = part >= -1 && part < i64::from(laid.file.n);
            let strings = if there { laid.strings(part) } else { &[] };
            let block = trace_block(bytes, length, part);
            same(lenient_trace_block(bytes, length, part), block.clone());
            let count = string_count(bytes, length, part);
            same(lenient_string_count(bytes, length, part), count);
            for i in 0..=strings.len() {
                let told = lenient_string(bytes, length, part, i);
                same(told, string_at(bytes, length, part, i));
            }
            let [mut a, mut b] = [(); 2].map(|()| vec![7; 4 * strings.len()]);
            let told = lenient_strings(bytes, length, part, &mut a);
            same(told, all_strings(bytes, length, part, &mut b));
            assert_eq!(a, b);
            let words = strings.iter().map(|s| bytes[s.keyword.clone()].to_vec());
            let words: Vec<Vec<u8>> = words.collect();
            for _ in 0..6 {
                let key = quick_key(&mut rng, &words);
                let told = lenient_keyword_string(bytes, length, part, &key);
                same(told, keyword_string(bytes, length, part, &key));
                let yes = keyword(bytes, length, part, &key);
                same(lenient_keyword(bytes, length, part, &key), yes);
                let place = keyword_value(bytes, length, part, &key);
                let told = lenient_value(bytes, length, part, &key);
                same(told, yes.map(|_| place));
            }
            let samples = block.map_or(2, |block| block.s as usize);
            let [mut a, mut b] = [(); 2].map(|()| vec![7; samples]);
            let told = lenient_integers(bytes, length, part, &mut a);
            same(told, samples_as_integers(bytes, length, part, &mut b));
            assert_eq!(a, b);
            let [mut a, mut b] = [(); 2].map(|()| (vec![7; samples], vec![7; samples]));
            let told = lenient_bits(bytes, length, part, &mut a.0, &mut a.1);
            same(
                told,
                samples_as_bits(bytes, length, part, &mut b.0, &mut b.1),
            );
            assert_eq!(a, b);
        }
    }
}

/// The strict question for the i-th string: `string` is the maker of one here.
fn string_at(
    bytes: &[u8],
    length: usize,
    part: i64,
    i: usize,
) -> Result<Option<StringPlace>, Refusal> {
    seg2_reference::string(bytes, length, part, i)
}

/// What the layout tells of old files and of damages on top of them, and every pair of verdicts
/// that there can be, often.
#[test]
fn generated_old_files() {
    let mut rng = Rng::new(1104);
    let mut met: BTreeMap<(u8, u8), usize> = BTreeMap::new();
    let mut names: BTreeMap<&str, usize> = BTreeMap::new();
    for _ in 0..60_000 {
        let case = old_case(&mut rng);
        let told = lenient_check(&case.buffer, case.length);
        let expected = Lenient {
            answer: case.lenient,
            strict: case.strict,
        };
        assert_eq!(told, expected, "{}", case.name);
        let strict = told.strict.map_or(0, |row| row.number);
        *met.entry((strict, number_of(&told.answer))).or_insert(0) += 1;
        *names.entry(case.name).or_insert(0) += 1;
    }
    let forgiven = [14, 16, 17, 34];
    let mut pairs = vec![(0, 0)];
    pairs.extend((1..=16).map(|number| (number, number)));
    pairs.extend(forgiven.map(|strict| (strict, 0)));
    // Rows 1 to 7 and the first pointer come before all strings.
    let later = |strict| (8..=16).map(move |lenient| (strict, lenient));
    pairs.extend(forgiven.into_iter().flat_map(later));
    pairs.sort();
    pairs.dedup();
    assert!(met.keys().eq(&pairs), "{met:?}");
    assert!(met.values().all(|&times| times > 10), "{met:?}");
    let ways = WAYS.iter().filter(|way| way.scope != Scope::Image);
    for name in ways.map(|way| way.name).chain(["an old file"]) {
        assert!(names.get(name).is_some_and(|&n| n > 50), "{name}");
    }
}

/// Old files have each habit, in the file's strings and in traces, in both orders and with
/// terminators of both lengths.
#[test]
fn habits_of_old_files() {
    let mut rng = Rng::new(1105);
    let mut met: BTreeMap<(&str, bool, bool, usize, usize), usize> = BTreeMap::new();
    for _ in 0..4000 {
        let model = Model::old(&mut rng);
        let laid = model.lay();
        for part in laid.parts() {
            let area = model.area(part);
            let words = area.strings.iter().map(|s| s.keyword.to_ascii_uppercase());
            let words: Vec<Vec<u8>> = words.collect();
            let lower = |s: &model::StringModel| s.keyword.iter().any(u8::is_ascii_lowercase);
            let is_note = |s: &model::StringModel| s.keyword.eq_ignore_ascii_case(b"NOTE");
            let notes = words.iter().filter(|word| *word == b"NOTE").count();
            let full = matches!(area.end, model::End::Nothing) && !words.is_empty();
            let many_lines = |s: &model::StringModel| is_note(s) && lower(s) && s.lines.len() > 1;
            let behind_note = words.iter().rev().skip(1).any(|word| word == b"NOTE");
            let habits = [
                ("lower case", area.strings.iter().any(lower)),
                ("falls", words.windows(2).any(|pair| pair[0] > pair[1])),
                ("again", words.windows(2).any(|pair| pair[0] == pair[1])),
                ("two notes", notes > 1),
                ("a note before others", behind_note),
                ("a lower note of lines", area.strings.iter().any(many_lines)),
                ("full", full),
                ("none", strict_row(&laid, part).is_none()),
            ];
            for (habit, _) in habits.iter().filter(|habit| habit.1) {
                let sizes = [&model.string_terminator, &model.line_terminator].map(Vec::len);
                let key = (
                    *habit,
                    part < 0,
                    model.order == Order::Low,
                    sizes[0],
                    sizes[1],
                );
                *met.entry(key).or_insert(0) += 1;
            }
        }
    }
    assert_eq!(met.len(), 8 * 16, "{met:?}");
    assert!(met.values().all(|&times| times > 10), "{met:?}");
}

/// The strict row of a part, if it has the file's first.
fn strict_row(laid: &Laid, part: i64) -> Option<Refusal> {
    let row = check(&laid.buffer, laid.length).err();
    row.filter(|row| row.part <= part)
}

/// Every question of an old file, by what the layout tells of its strings.
#[test]
fn questions_of_old_files() {
    let mut rng = Rng::new(1106);
    let (mut yes, mut no, mut again) = (0, 0, 0);
    for _ in 0..1500 {
        let laid = Model::old(&mut rng).lay();
        let (bytes, length) = (&laid.buffer[..], laid.length);
        let strict = check(bytes, length).err();
        for part in laid.parts().into_iter().take(4) {
            let strings = laid.strings(part);
            let count = lenient_string_count(bytes, length, part);
            assert_eq!((count.answer, count.strict), (Ok(strings.len()), strict));
            for (i, place) in strings.iter().enumerate() {
                let told = lenient_string(bytes, length, part, i);
                assert_eq!(told.answer, Ok(Some(place.clone())));
            }
            let mut row = vec![0; 4 * strings.len()];
            let told = lenient_strings(bytes, length, part, &mut row);
            assert_eq!((told.answer, told.strict), (Ok(()), strict));
            let numbers: Vec<usize> = strings.iter().flat_map(StringPlace::numbers).collect();
            assert_eq!(row, numbers);
            let upper = |s: &StringPlace| bytes[s.keyword.clone()].to_ascii_uppercase();
            let words: Vec<Vec<u8>> = strings.iter().map(upper).collect();
            for _ in 0..8 {
                let key = quick_key(&mut rng, &words);
                let is_it = |word: &&Vec<u8>| **word == key;
                let first = words.iter().position(|word| *word == key);
                let told = lenient_keyword_string(bytes, length, part, &key);
                let place = first.map(|i| strings[i].clone());
                assert_eq!((told.answer, told.strict), (Ok(place), strict));
                match first {
                    Some(_) => yes += 1,
                    None => no += 1,
                }
                again += usize::from(words.iter().filter(is_it).count() > 1);
            }
        }
    }
    assert!(
        yes > 3_000 && no > 3_000 && again > 500,
        "{yes} {no} {again}"
    );
}

/// Whatever comes: "What is strictly accepted is leniently accepted", and where the lenient
/// reading refuses, the strict one has refused by that row or by a forgiven one before it.
#[test]
fn the_two_verdicts_of_anything() {
    /// When a row of strings and traces has its turn.
    fn turn(row: &Refusal) -> (i64, u64, u8) {
        match row.number {
            34 => (row.part, u64::MAX, 34),
            8..=13 => (row.part, 0, row.number),
            _ => (row.part, row.place, row.number),
        }
    }
    let mut rng = Rng::new(1107);
    let mut met: BTreeMap<&str, usize> = BTreeMap::new();
    for i in 0..40_000 {
        let (buffer, length) = match i % 2 {
            0 => mutated(&mut rng),
            _ => mutated_old(&mut rng),
        };
        let told = lenient_check(&buffer, length);
        assert_eq!(told.strict, check(&buffer, length).err());
        let which = match (&told.answer, told.strict) {
            (Ok(file), None) => {
                assert_eq!(check(&buffer, length).as_ref(), Ok(file));
                "both accept"
            }
            (Ok(_), Some(row)) => {
                assert!(matches!(row.number, 14 | 16 | 17 | 34), "{row}");
                "forgiven"
            }
            (Err(own), Some(row)) if *own == row => "the same row",
            (Err(own), Some(row)) => {
                assert!(matches!(row.number, 14 | 16 | 17 | 34), "{row}");
                assert!(!matches!(own.number, 1..=7 | 17 | 34), "{own}");
                assert!(turn(&row) < turn(own), "{row}, then {own}");
                "another row later"
            }
            (Err(own), None) => panic!("strictly accepted: {own}"),
        };
        *met.entry(which).or_insert(0) += 1;
    }
    assert_eq!(met.len(), 4, "{met:?}");
    assert!(met.values().all(|&times| times > 500), "{met:?}");
}
