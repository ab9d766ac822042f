//! Document 02, §11, through the archive: older recorders. What is forgiven, the strict verdict
//! beside every answer, and that a library which reads otherwise is noticed.

use seg2_differential::asking::ask_forms;
use seg2_differential::call::{keyword_questions, sample_questions};
use seg2_differential::case::{Given, Kind};
use seg2_differential::draw::{self, rng_of, KINDS};
use seg2_differential::expected::{expected, Known};
use seg2_differential::growing::add;
use seg2_differential::lenient::{Points, Reading, Rules, LENIENT, RIGHT, STRICT};
use seg2_differential::lent::{Memory, Rows};
use seg2_differential::shrink::shrunk;
use seg2_differential::text::{read, written};
use seg2_differential::{all_alike, Answer, Archive, Call, Case, Pair, Verdict};
use seg2_reference as reference;
use seg2_reference::generate::{old_case, old_damaged, plain_file, PlainTrace, Scope, WAYS};
use seg2_reference::strings::{is_keyword, may_follow, NOTE};
use seg2_reference::worked::example;
use seg2_reference::{Order, Refusal, Row, StringPlace};
use std::collections::BTreeMap;
use std::time::Duration;

fn verdict(number: u32, part: i32, place: usize) -> Verdict {
    Verdict {
        number,
        part,
        place,
    }
}

/// The verdict of a refusal, or of none.
fn verdict_of(refusal: Option<Refusal>) -> Verdict {
    refusal.map_or(Verdict::ACCEPTED, |r| {
        verdict(r.number.into(), r.part as i32, r.place as usize)
    })
}

/// A call alike on both sides.
fn asked(pair: &mut Pair, length: usize, call: Call) -> Answer {
    pair.ask(length, call).unwrap_or_else(|d| panic!("{d}"))
}

/// The lenient check's two verdicts of a whole buffer.
fn verdicts(bytes: &[u8]) -> (Verdict, Verdict) {
    let mut pair = Pair::new(&Archive, 2_001, bytes);
    let answer = asked(&mut pair, bytes.len(), Call::LenientCheck);
    (
        answer.verdict(),
        answer.strict.expect("a verdict beside it"),
    )
}

// ---- worked files

/// The listing program's example: each answer as the strict one, and none told beside it.
#[test]
fn the_file_of_108_bytes() {
    let bytes = example();
    let mut pair = Pair::new(&Archive, 2_002, &bytes);
    pair.lend_key(b"STACK");
    let one = 1.0_f64.to_bits();
    let (part, trace) = (0, 0);
    for (call, values) in [
        (Call::LenientCheck, &[][..]),
        (Call::LenientFileBlock, &[0, 4, 1, 1, 1]),
        (Call::LenientTraceBlock { trace }, &[56, 44, 8, 3, 1]),
        (Call::LenientStringCount { part }, &[1]),
        (Call::LenientString { part, index: 0 }, &[1, 90, 5, 96, 1]),
        (Call::LenientString { part, index: 1 }, &[]),
        (Call::LenientKeyword { part }, &[1]),
        (Call::LenientValue { part }, &[96, 1]),
        (Call::LenientNumber { part }, &[0, 0, 1, 0]),
        (Call::LenientDouble { part }, &[one]),
        (Call::LenientLocation { part }, &[1, one, 0, 0, 0, 0, 0]),
    ] {
        let mut all = [0; 7];
        all[..values.len()].copy_from_slice(values);
        let expected = Answer::good(all).beside(Verdict::ACCEPTED);
        assert_eq!(asked(&mut pair, 108, call), expected, "{call:?}");
    }
}

/// A file of an older recorder: its own strings at 40, block 0 at 64 with strings at 96, block 1
/// at 136.
fn old_example() -> Vec<u8> {
    let traces = [
        PlainTrace {
            strings: &[b"Stack 12", b"stack 3", b"Delay 1e3"],
            code: 1,
            count: 2,
            data: &[1, 0, 0xFF, 0xFF],
        },
        PlainTrace {
            strings: &[b"UNITS m", b"CHANNEL_NUMBER x"],
            code: 4,
            count: 1,
            data: &[0, 0, 0x80, 0x3F],
        },
    ];
    plain_file(Order::Low, &[b"note a\nb", b"CLIENT x"], &traces)
}

/// Every lenient question of it.
#[test]
fn an_old_file_by_hand() {
    let bytes = old_example();
    let length = bytes.len();
    let mut pair = Pair::new(&Archive, 2_003, &bytes);
    let strict = verdict(16, -1, 40);
    let twelve = 12.0_f64.to_bits();
    #[rustfmt::skip]
    let told: &[(&[u8], Call, &[u64])] = &[
        (b"", Call::LenientCheck, &[]),
        (b"", Call::LenientFileBlock, &[0, 8, 2, 1, 1]),
        (b"", Call::LenientTraceBlock { trace: 0 }, &[64, 68, 4, 2, 1]),
        (b"", Call::LenientTraceBlock { trace: 1 }, &[136, 64, 4, 1, 4]),
        (b"", Call::LenientStringCount { part: -1 }, &[2]),
        (b"", Call::LenientStringCount { part: 0 }, &[3]),
        (b"", Call::LenientString { part: -1, index: 0 }, &[1, 42, 4, 47, 3]),
        (b"", Call::LenientString { part: -1, index: 1 }, &[1, 53, 6, 60, 1]),
        (b"", Call::LenientString { part: -1, index: 2 }, &[]),
        (b"", Call::LenientString { part: 0, index: 1 }, &[1, 109, 5, 115, 1]),
        (b"NOTE", Call::LenientKeyword { part: -1 }, &[1]),
        (b"NOTE", Call::LenientValue { part: -1 }, &[47, 3]),
        (b"note", Call::LenientKeyword { part: -1 }, &[0]),
        (b"note", Call::LenientValue { part: -1 }, &[0, 0]),
        (b"STACK", Call::LenientKeyword { part: 0 }, &[1]),
        (b"STACK", Call::LenientValue { part: 0 }, &[104, 2]),
        (b"STACK", Call::LenientNumber { part: 0 }, &[0, 0, 12, 0]),
        (b"STACK", Call::LenientDouble { part: 0 }, &[twelve]),
        (b"STACK", Call::LenientLocation { part: 0 }, &[1, twelve, 0, 0, 0, 0, 0]),
        (b"Stack", Call::LenientKeyword { part: 0 }, &[0]),
        (b"CHANNEL_NUMBER", Call::LenientKeyword { part: 1 }, &[1]),
    ];
    for (key, call, values) in told {
        pair.lend_key(key);
        let mut all = [0; 7];
        all[..values.len()].copy_from_slice(values);
        let expected = Answer::good(all).beside(strict);
        assert_eq!(asked(&mut pair, length, *call), expected, "{call:?}");
    }
    // Rows: all strings, samples, patterns.
    let rows = Rows {
        integers: vec![7; 2],
        patterns: vec![7; 1],
        classes: vec![7; 1],
        strings: vec![7; 8],
    };
    pair.lend_rows(&rows);
    let good = Answer::good([]).beside(strict);
    assert_eq!(
        asked(&mut pair, length, Call::LenientStrings { part: -1 }),
        good
    );
    assert_eq!(pair.memory().strings, [42, 4, 47, 3, 53, 6, 60, 1]);
    assert_eq!(
        asked(&mut pair, length, Call::LenientIntegers { trace: 0 }),
        good
    );
    assert_eq!(pair.memory().integers, [1, -1]);
    assert_eq!(
        asked(&mut pair, length, Call::LenientBits { trace: 1 }),
        good
    );
    let memory = pair.memory();
    assert_eq!(
        (&memory.patterns[..], &memory.classes[..]),
        (&[0x3F80_0000][..], &[2][..])
    );
    // Own refusals: the strict verdict stands beside them, and the rows stay.
    pair.lend_rows(&rows);
    for (key, call, number) in [
        (&b"DELAY"[..], Call::LenientNumber { part: 0 }, 20),
        (b"delay", Call::LenientDouble { part: 0 }, 20),
        (b"NOTE", Call::LenientLocation { part: 0 }, 23),
        (b"", Call::LenientTraceBlock { trace: -1 }, 18),
        (b"", Call::LenientStringCount { part: 2 }, 18),
        (b"", Call::LenientKeyword { part: -2 }, 18),
        (b"", Call::LenientStrings { part: 0 }, 32),
        (b"", Call::LenientStrings { part: 2 }, 18),
        (b"", Call::LenientIntegers { trace: 1 }, 33),
        (b"", Call::LenientBits { trace: 0 }, 33),
        (b"", Call::LenientIntegers { trace: -1 }, 18),
    ] {
        pair.lend_key(key);
        let expected = Answer::refused(number, -1, 0).beside(strict);
        assert_eq!(asked(&mut pair, length, call), expected, "{call:?}");
        assert_eq!(pair.memory().rows(), rows);
    }
    // The strict questions, and an addition, refuse it.
    for call in [Call::Check, Call::FileBlock, Call::StringCount { part: 0 }] {
        let expected = Answer::refused(16, -1, 40);
        assert_eq!(asked(&mut pair, length, call), expected);
    }
}

/// Each point by itself: how many bytes an area has left, which letters, which order, which
/// channel numbers; and rows that nothing forgives behind each.
#[test]
fn verdicts_by_hand() {
    // One trace, whose strings start at 36 + 4 + 32.
    let file = |strings: &[&[u8]]| plain_file(Order::High, &[], &[PlainTrace::of_strings(strings)]);
    let at = 36 + 4 + 32;
    let none = Verdict::ACCEPTED;
    for (strings, lenient, strict) in [
        (&[&b"A 1"[..], b"B 2"][..], none, none),
        (&[b"a 1", b"B 2"], none, verdict(16, 0, at)),
        (&[b"A 1", b"b 2"], none, verdict(16, 0, at + 6)),
        (&[b"A 1", b"A 2"], none, verdict(17, 0, at + 6)),
        (&[b"B 1", b"A 2"], none, verdict(17, 0, at + 6)),
        (&[b"NOTE a\nb", b"A 2"], none, verdict(17, 0, at + 11)),
        (&[b"nOTe a\nb"], none, verdict(16, 0, at)),
        (&[b"CHANNEL_NUMBER 0"], none, verdict(34, 0, at)),
        (&[b"CHANNEL_NUMBER"], none, verdict(34, 0, at)),
        (&[b"b \x7F"], verdict(16, 0, at), verdict(16, 0, at)),
        (&[b"a\nb c"], verdict(16, 0, at), verdict(16, 0, at)),
        (&[b"notes a\nb"], verdict(16, 0, at), verdict(16, 0, at)),
        (&[b" a"], verdict(16, 0, at), verdict(16, 0, at)),
        (
            &[b"a 1", b"\x80"],
            verdict(16, 0, at + 6),
            verdict(16, 0, at),
        ),
        (
            &[b"B 1", b"A\x7F"],
            verdict(16, 0, at + 6),
            verdict(16, 0, at + 6),
        ),
        (
            &[b"B", b"A", b" "],
            verdict(16, 0, at + 8),
            verdict(17, 0, at + 4),
        ),
    ] {
        assert_eq!(verdicts(&file(strings)), (lenient, strict), "{strings:?}");
    }
    // The area's end: so many bytes behind the string, which is lengthened for it.
    for (left, lenient, strict) in [
        (0, none, verdict(14, 0, at + 8)),
        (1, verdict(14, 0, at + 7), verdict(14, 0, at + 7)),
        (2, none, none),
        (3, none, none),
    ] {
        let text = [&b"A "[..], &vec![b'x'; 3 - left]].concat();
        let strings = [&text[..]];
        let mut bytes = file(&strings);
        let end = at + text.len() + 3;
        bytes.truncate(end + left);
        bytes[40 + 3] = (end + left - 40) as u8;
        assert_eq!(verdicts(&bytes), (lenient, strict), "{left}");
    }
    // Channel numbers in some traces only.
    let with: &[&[u8]] = &[b"CHANNEL_NUMBER 1"];
    let traces = [with, &[], with].map(PlainTrace::of_strings);
    let bytes = plain_file(Order::Low, &[], &traces);
    let second = 32 + 12 + 4 + 32 + 24 + 32;
    assert_eq!(verdicts(&bytes), (none, verdict(34, 1, second)));
}

/// Every area of four bytes out of these, and of eight that begin with an offset: both verdicts
/// and the strings, as the reference has them.
#[test]
fn every_small_area() {
    const FOUR: [u8; 8] = [0, 1, 3, 4, b'A', b'a', b' ', 10];
    const SIX: [u8; 5] = [0, 4, b'B', b'b', b' '];
    let mut met: BTreeMap<(u32, u32), u64> = BTreeMap::new();
    let mut compare = |strings: &[&[u8]], area: &[u8]| {
        let mut bytes = plain_file(Order::Low, &[], &[PlainTrace::of_strings(strings)]);
        let at = bytes.len() - area.len();
        bytes[at..].copy_from_slice(area);
        let mut pair = Pair::new(&Archive, 2_009, &bytes);
        pair.lend_key(b"B");
        let answer = asked(&mut pair, bytes.len(), Call::LenientCheck);
        asked(&mut pair, bytes.len(), Call::LenientStringCount { part: 0 });
        asked(&mut pair, bytes.len(), Call::LenientValue { part: 0 });
        let strict = answer.strict.expect("a verdict").number;
        *met.entry((strict, answer.number)).or_insert(0) += 1;
    };
    for number in 0..8_usize.pow(4) {
        let area = [0, 3, 6, 9].map(|shift| FOUR[(number >> shift) % 8]);
        compare(&[], &area);
    }
    for offset in [0, 3, 4, 6, 8] {
        for number in 0..5_usize.pow(6) {
            let six = [1, 5, 25, 125, 625, 3_125].map(|step| SIX[number / step % 5]);
            compare(&[b"A"], &[&[offset, 0], &six[..]].concat());
        }
    }
    // Two strings fill eight bytes: 17 comes before the missing end mark.
    let pairs = [
        (0, 0),
        (14, 0),
        (14, 14),
        (15, 15),
        (16, 0),
        (16, 14),
        (16, 15),
        (16, 16),
        (17, 0),
    ];
    assert!(met.keys().eq(&pairs), "{met:?}");
}

// ---- generated files

/// What the layout tells of old files, through the archive: each pair of verdicts that there
/// can be.
#[test]
fn generated_old_files() {
    let mut met: BTreeMap<(u32, u32), u64> = BTreeMap::new();
    for number in 0..40_000 {
        let case = old_case(&mut rng_of(2_004, number));
        let mut pair = Pair::new(&Archive, number, &case.buffer);
        let answer = asked(&mut pair, case.length, Call::LenientCheck);
        let strict = verdict_of(case.strict);
        let expected = (verdict_of(case.lenient.err()), Some(strict));
        assert_eq!((answer.verdict(), answer.strict), expected, "{}", case.name);
        *met.entry((strict.number, answer.number)).or_insert(0) += 1;
    }
    let forgiven = [14, 16, 17, 34];
    // Both accept; the same row; forgiven; another row behind a forgiven one.
    let expected = 1 + 16 + 4 + 4 * 9 - 2;
    assert_eq!(met.len(), expected, "{met:?}");
    for (strict, lenient) in met.keys() {
        let same = strict == lenient && *lenient <= 16;
        let later = forgiven.contains(strict) && matches!(lenient, 0 | 8..=16);
        assert!(same || later, "{strict} {lenient}");
    }
}

/// Every question of such files, lent memory included: each row of the lenient reading and of
/// its questions.
#[test]
fn every_question_of_old_files() {
    let tally = all_alike(2_005, 8_000, draw::old_file);
    for number in (0..=18).chain(20..=23).chain([32, 33, 34]) {
        assert!(tally.met[number] > 100, "{number}: {:?}", tally.met);
    }
}

/// Each way of damage on top of old files.
#[test]
fn each_damage_of_old_files() {
    for (i, way) in WAYS.iter().enumerate() {
        if way.scope == Scope::Image {
            continue;
        }
        all_alike(2_100 + i as u64, 40, |rng| {
            let old = old_damaged(rng, way);
            let (buffer, length, seed) = (old.buffer, old.length, rng.bits());
            let kind = Kind::Asked { buffer, length };
            Case { seed, kind }
        });
    }
}

/// "Adding to a file still needs the strict check": it refuses by the strict row, and every byte
/// stays.
#[test]
fn additions_to_old_files() {
    let (mut refused, mut added) = (0, 0);
    for number in 0..3_000 {
        let case = old_case(&mut rng_of(2_006, number));
        let mut buffer = case.buffer.clone();
        buffer.resize(buffer.len() + 200, 7);
        let mut pair = Pair::new(&Archive, number, &buffer);
        let given = Given {
            sheet: Vec::new(),
            code: 1,
            row: Row::Integers(vec![1, 2]),
        };
        let (answer, _) = add(&mut pair, case.length, &given).expect("alike");
        match case.strict {
            // Row 5 is not an addition's, and the buffer is longer.
            Some(row) if matches!(row.number, 1 | 5) => {}
            Some(row) => {
                assert_eq!(answer.verdict(), verdict_of(Some(row)));
                assert_eq!(pair.memory().buffer, buffer);
                refused += 1;
            }
            None => added += u64::from(answer.number == 0),
        }
    }
    assert!(refused > 2_000 && added > 20, "{refused} {added}");
}

/// "It answers the same strings as the strict reading on each strictly accepted file": every
/// question in both forms, which `ask_forms` compares, rows included.
#[test]
fn strictly_accepted_files() {
    for number in 0..400 {
        let mut rng = rng_of(2_007, number);
        let Kind::Asked { buffer, length } = draw::valid(&mut rng).kind else {
            panic!("another kind");
        };
        let mut pair = Pair::new(&Archive, number, &buffer);
        let check = ask_forms(&mut pair, length, Call::Check);
        assert_eq!(check, Ok(Answer::good([])));
        for part in [-1, 0] {
            for call in [Call::StringCount { part }, Call::Strings { part }] {
                let answer = ask_forms(&mut pair, length, call).expect("alike");
                let lenient = call.lenient().expect("a lenient form");
                let told = asked(&mut pair, length, lenient);
                assert_eq!(told, answer.beside(Verdict::ACCEPTED));
            }
        }
    }
}

/// What the comparison keeps of the reference's checks changes no answer: the same as without it,
/// and as the reference's own functions give it, over lengths that change and a buffer that does.
#[test]
fn what_is_known_changes_no_answer() {
    for number in 0..300 {
        let mut rng = rng_of(2_010, number);
        let [old, other] = [old_case(&mut rng), old_case(&mut rng)];
        let rows = Rows::junk(&mut rng, 2, 2, 8);
        let mut memory = Memory {
            buffer: old.buffer.clone(),
            key: b"STACK".to_vec(),
            integers: rows.integers,
            patterns: rows.patterns,
            classes: rows.classes,
            strings: rows.strings,
            ..Memory::default()
        };
        let mut known = Known::default();
        for length in [old.length, old.length - old.length % 40, old.length] {
            for part in [-1, 0, 1] {
                let mut calls = vec![Call::Check, Call::FileBlock];
                calls.extend([Call::TraceBlock { trace: part }, Call::Strings { part }]);
                calls.extend([Call::StringCount { part }, Call::String { part, index: 1 }]);
                calls.extend(keyword_questions(part));
                calls.extend(sample_questions(part));
                let lenient: Vec<Call> = calls.iter().filter_map(|call| call.lenient()).collect();
                assert_eq!((calls.len(), lenient.len()), (13, 13));
                for call in calls.into_iter().chain(lenient) {
                    let [mut kept, mut fresh] = [(); 2].map(|()| memory.clone());
                    let told = known.expected(call, length, &mut kept);
                    assert_eq!(told, expected(call, length, &mut fresh), "{call:?}");
                    assert_eq!(kept, fresh, "{call:?}");
                }
                let (buffer, part) = (&memory.buffer[..], i64::from(part));
                let count = reference::lenient_string_count(buffer, length, part);
                let value = reference::lenient_value(buffer, length, part, b"STACK");
                for (call, row, strict) in [
                    (
                        Call::StringCount { part: part as i32 },
                        count.answer.err(),
                        count.strict,
                    ),
                    (
                        Call::Value { part: part as i32 },
                        value.answer.err(),
                        value.strict,
                    ),
                ] {
                    let call = call.lenient().expect("a lenient form");
                    let told = known.expected(call, length, &mut memory.clone());
                    assert_eq!(told.verdict(), verdict_of(row));
                    assert_eq!(told.strict, Some(verdict_of(strict)));
                }
            }
        }
        // Another buffer of the same length is another file.
        memory.buffer = other.buffer;
        let mut pair = Pair::new(&Archive, number, &old.buffer);
        for buffer in [&old.buffer, &memory.buffer, &old.buffer] {
            pair.lend_buffer(buffer);
            asked(&mut pair, old.length, Call::LenientCheck);
        }
    }
}

// ---- memory

/// No byte beside a lent piece is read or written, whatever the file is.
#[cfg(target_os = "linux")]
#[test]
fn nothing_beside_is_touched() {
    use seg2_differential::guarded::Guarded;
    for at_end in [true, false] {
        let guarded = Guarded::new(400_000, at_end);
        for number in 0..400 {
            println!("at the end {at_end}: case {number}");
            let case = draw::old_file(&mut rng_of(2_008, number));
            assert_eq!(case.compare(&guarded).err(), None);
        }
    }
}

// ---- libraries that read otherwise

/// Old files, damages by every way on top of them, then some cases of every kind.
fn cases() -> Vec<Case> {
    let old = |number| draw::old_file(&mut rng_of(2_201, number));
    let mut cases: Vec<Case> = (0..1_200).map(old).collect();
    for (i, way) in WAYS.iter().enumerate() {
        let damaged = |number| draw::damaged_by(&mut rng_of(2_211 + i as u64, number), way);
        cases.extend((0..4).map(damaged));
    }
    for (i, (_, draw)) in KINDS.iter().enumerate() {
        cases.extend((0..10).map(|number| draw(&mut rng_of(2_301 + i as u64, number))));
    }
    cases
}

/// Questions by what they look at.
const LISTED: [&str; 3] = ["lenient_string_count", "lenient_string", "lenient_strings"];
const KEYED: [&str; 5] = [
    "lenient_keyword",
    "lenient_value",
    "lenient_number",
    "lenient_double",
    "lenient_location",
];
const NUMBERED: [&str; 3] = ["lenient_number", "lenient_double", "lenient_location"];
const FILLING: [&str; 3] = ["lenient_strings", "lenient_integers", "lenient_bits"];
const SAMPLED: [&str; 2] = ["lenient_integers", "lenient_bits"];

fn every() -> Vec<&'static str> {
    let blocks = ["lenient_check", "lenient_file_block", "lenient_trace_block"];
    [&blocks[..], &LISTED, &KEYED, &SAMPLED].concat()
}

/// Questions that have rows of their own.
fn refusing() -> Vec<&'static str> {
    let all = every().into_iter();
    let own = |name: &&str| !matches!(*name, "lenient_check" | "lenient_file_block");
    all.filter(own).collect()
}

/// The strings without those whose keyword has stood before.
fn once(buffer: &[u8], strings: &[StringPlace]) -> Vec<StringPlace> {
    let word = |s: &StringPlace| buffer[s.keyword.clone()].to_ascii_uppercase();
    let mut kept: Vec<StringPlace> = Vec::new();
    for string in strings {
        if kept.iter().all(|before| word(before) != word(string)) {
            kept.push(string.clone());
        }
    }
    kept
}

fn sorted(buffer: &[u8], strings: &[StringPlace]) -> Vec<StringPlace> {
    let mut all = strings.to_vec();
    all.sort_by_key(|s| {
        let word = buffer[s.keyword.clone()].to_ascii_uppercase();
        (word == NOTE, word)
    });
    all
}

/// Whether keywords rise, in any letters.
fn rises(before: &[u8], word: &[u8]) -> bool {
    let [before, word] = [before, word].map(|word| word.to_ascii_uppercase());
    may_follow(&before, &word)
}

/// Letters and their neighbours alike, as a bit taken away would have it.
fn by_a_bit(word: &[u8]) -> Vec<u8> {
    let folded = |&c: &u8| if c >= 96 { c & 0xDF } else { c };
    word.iter().map(folded).collect()
}

/// All letters but one.
fn without(word: &[u8], letter: u8) -> Vec<u8> {
    let folded = |&c: &u8| {
        if c == letter {
            c
        } else {
            c.to_ascii_uppercase()
        }
    };
    word.iter().map(folded).collect()
}

/// Each wrong reading, by its fault, and the questions that it makes wrong.
#[rustfmt::skip]
fn wrong_readings() -> Vec<(&'static str, Vec<&'static str>, Reading)> {
    let own = |own: Points| Reading { lenient: Rules { own, ..RIGHT.lenient }, ..RIGHT };
    let traces = |traces: Points| Reading { lenient: Rules { traces, ..RIGHT.lenient }, ..RIGHT };
    let upper_alone = Points { keyword: is_keyword, ..LENIENT };
    let never_ends = Points { ends: |_| false, ..LENIENT };
    let in_order = Points { follows: rises, ..LENIENT };
    vec![
        // what is forgiven
        ("lower case is refused", every(), Reading::with(upper_alone)),
        ("lower case is refused in the file's own strings", every(), own(upper_alone)),
        ("lower case is refused in traces", every(), traces(upper_alone)),
        ("a lower case letter alone is refused", every(), Reading::with(Points { keyword: |word| (LENIENT.keyword)(word) && word.iter().any(|c| !c.is_ascii_lowercase()), ..LENIENT })),
        ("z is refused", every(), Reading::with(Points { keyword: |word| (LENIENT.keyword)(word) && !word.contains(&b'z'), ..LENIENT })),
        ("17 is given", every(), Reading::with(in_order)),
        ("17 is given in the file's own strings", every(), own(in_order)),
        ("17 is given in traces", every(), traces(in_order)),
        ("17 for repeats", every(), Reading::with(Points { follows: |before, word| !before.eq_ignore_ascii_case(word), ..LENIENT })),
        ("17 for what falls", every(), Reading::with(Points { follows: |before, word| before.eq_ignore_ascii_case(word) || rises(before, word), ..LENIENT })),
        ("17 behind NOTE", every(), Reading::with(Points { follows: |before, _| before != NOTE, ..LENIENT })),
        ("34 is given", every(), Reading { lenient: Rules { channels: true, ..RIGHT.lenient }, ..RIGHT }),
        ("no byte left is refused", every(), Reading::with(never_ends)),
        ("no byte left is refused in the file's own area", every(), own(never_ends)),
        ("no byte left is refused in traces", every(), traces(never_ends)),
        ("note is not NOTE", every(), Reading::with(Points { lines: |word| word == NOTE, ..LENIENT })),
        // what is not
        ("one byte left ends a list", every(), Reading::with(Points { ends: |_| true, ..LENIENT })),
        ("one byte left ends a list, none does not", every(), Reading::with(Points { ends: |left| left == 1, ..LENIENT })),
        ("any keyword holds lines", every(), Reading::with(Points { lines: |_| true, ..LENIENT })),
        ("what begins as NOTE holds lines", every(), Reading::with(Points { lines: |word| word.to_ascii_uppercase().starts_with(NOTE), ..LENIENT })),
        ("an empty keyword is forgiven", every(), Reading::with(Points { keyword: |word| word.is_empty() || (LENIENT.keyword)(word), ..LENIENT })),
        ("any character is forgiven in a keyword", every(), Reading::with(Points { keyword: |word| !word.is_empty(), ..LENIENT })),
        ("127 is forgiven in a keyword", every(), Reading::with(Points { keyword: |word| !word.is_empty() && word.iter().all(|c| matches!(c, 33..=127)), ..LENIENT })),
        ("the strict reading for the lenient one", every(), Reading { lenient: RIGHT.strict, ..RIGHT }),
        // the strict verdict
        ("lower case is accepted strictly", every(), Reading::with_strict(Points { keyword: LENIENT.keyword, ..STRICT })),
        ("any order is accepted strictly", every(), Reading::with_strict(Points { follows: LENIENT.follows, ..STRICT })),
        ("no byte left is accepted strictly", every(), Reading::with_strict(Points { ends: LENIENT.ends, ..STRICT })),
        ("34 is not given strictly", every(), Reading { strict: Rules { channels: false, ..RIGHT.strict }, ..RIGHT }),
        ("the strict verdict is the lenient one", every(), Reading { strict: RIGHT.lenient, ..RIGHT }),
        ("the strict verdict is left out", every(), Reading { beside: |_, _| None, ..RIGHT }),
        ("the strict verdict is left out behind a refusal", every(), Reading { beside: |strict, own| strict.filter(|_| own.is_none()), ..RIGHT }),
        ("the strict verdict is told behind a refusal alone", every(), Reading { beside: |strict, own| strict.filter(|_| own.is_some()), ..RIGHT }),
        ("a verdict is told where there is none", every(), Reading { beside: |strict, _| strict.or(Some(Refusal::file(17, 0))), ..RIGHT }),
        ("the question's own refusal is told for the strict one", refusing(), Reading { beside: |strict, own| own.or(strict), ..RIGHT }),
        ("the question's own refusal is told where there is no strict one", refusing(), Reading { beside: |strict, own| strict.or(own), ..RIGHT }),
        ("a strict verdict of the file alone", every(), Reading { beside: |strict, _| strict.map(|row| Refusal { part: -1, ..row }), ..RIGHT }),
        ("a strict verdict without its place", every(), Reading { beside: |strict, _| strict.map(|row| Refusal { place: 0, ..row }), ..RIGHT }),
        // which string
        ("keywords are compared as they stand", KEYED.to_vec(), Reading { counts_as: |word| word.to_vec(), ..RIGHT }),
        ("neighbours of letters are folded", KEYED.to_vec(), Reading { counts_as: by_a_bit, ..RIGHT }),
        ("a is not folded", KEYED.to_vec(), Reading { counts_as: |word| without(word, b'a'), ..RIGHT }),
        ("z is not folded", KEYED[..2].to_vec(), Reading { counts_as: |word| without(word, b'z'), ..RIGHT }),
        ("the first letter alone is folded", KEYED.to_vec(), Reading { counts_as: |word| [&word[..1].to_ascii_uppercase(), &word[1..]].concat(), ..RIGHT }),
        ("what is asked for is folded", KEYED.to_vec(), Reading { key: |key| key.to_ascii_uppercase(), ..RIGHT }),
        ("both are folded to lower case", KEYED.to_vec(), Reading { counts_as: |word| word.to_ascii_lowercase(), key: |key| key.to_ascii_lowercase(), ..RIGHT }),
        ("a prefix is found", KEYED.to_vec(), Reading { is: |met, key| met.starts_with(key), ..RIGHT }),
        ("the last of repeats", KEYED[1..].to_vec(), Reading { first: false, ..RIGHT }),
        ("a greater keyword ends the search", KEYED.to_vec(), Reading { passes: |met, key| met > key, ..RIGHT }),
        ("NOTE ends the search", KEYED.to_vec(), Reading { passes: |met, key| met == NOTE && key != NOTE, ..RIGHT }),
        ("repeats are listed once", LISTED.to_vec(), Reading { listed: once, ..RIGHT }),
        ("strings are sorted", LISTED[1..].to_vec(), Reading { listed: sorted, ..RIGHT }),
        ("the last string of a list is left out", LISTED.to_vec(), Reading { listed: |_, strings| strings[..strings.len().saturating_sub(1)].to_vec(), ..RIGHT }),
        // what is lent and what is read
        ("a value's letters are folded", NUMBERED.to_vec(), Reading { text: |value| value.to_ascii_uppercase(), ..RIGHT }),
        ("a row is written to before it is refused", FILLING.to_vec(), Reading { fills_first: true, ..RIGHT }),
        ("the caller's keywords are folded", every(), Reading { folds_buffer: true, ..RIGHT }),
    ]
}

/// The third reading is right, so what is noticed below is the fault and nothing else.
#[test]
fn the_right_reading_is_alike() {
    for case in cases() {
        if let Err(difference) = case.compare(&RIGHT) {
            panic!("{difference}\n{}", written(&case));
        }
    }
}

/// A difference of old files is made smaller, written as text and found again out of it.
#[test]
fn a_difference_is_kept() {
    for (function, wrong) in [
        (
            "lenient_check",
            Reading::with(Points {
                follows: may_follow,
                ..LENIENT
            }),
        ),
        (
            "lenient_value",
            Reading {
                first: false,
                ..RIGHT
            },
        ),
        (
            "lenient_string_count",
            Reading {
                beside: |_, _| None,
                ..RIGHT
            },
        ),
    ] {
        let wrong = Reading {
            function: Some(function),
            ..wrong
        };
        let differs = |case: &Case| case.compare(&wrong).is_err();
        let case = (0..400)
            .map(|number| draw::old_file(&mut rng_of(2_401, number)))
            .find(differs)
            .expect("a case that shows it");
        let small = shrunk(&case, &wrong, Duration::from_millis(300));
        let again = read(&written(&small)).expect("a case");
        assert_eq!(again, small);
        assert!(differs(&again) && again.compare(&Archive).is_ok());
        let [size, whole] = [&small, &case].map(|case| match &case.kind {
            Kind::Asked { buffer, .. } => buffer.len(),
            _ => panic!("another kind"),
        });
        assert!(size < whole, "{function}: {size} of {whole}");
    }
}

/// In each question by itself: the others are the archive's.
#[test]
fn each_wrong_reading_is_noticed() {
    let cases = cases();
    let (mut tried, mut unnoticed) = (0, Vec::new());
    for (fault, functions, reading) in wrong_readings() {
        for name in functions {
            let function = Some(name);
            let wrong = Reading {
                function,
                ..reading
            };
            if !cases.iter().any(|case| case.compare(&wrong).is_err()) {
                unnoticed.push((name, fault));
            }
            tried += 1;
        }
    }
    assert!(unnoticed.is_empty(), "{unnoticed:#?}");
    println!("{tried} faults noticed");
}
