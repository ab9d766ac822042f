//! Document 02, §5, through the archive: one trace, quickly. Bytes that it does not look at
//! change nothing, accepted files answer as the full question does, and a library that
//! searches otherwise is noticed.

use seg2_differential::call::keyword_questions;
use seg2_differential::draw::{self, rng_of, KINDS};
use seg2_differential::flips::{Flips, Trial};
use seg2_differential::lent::Rows;
use seg2_differential::questions::{questions, Question, Told};
use seg2_differential::quick::{Also, Least, Turn, Way, RIGHT};
use seg2_differential::{all_alike, Answer, Archive, Call, Case, Library, Pair};
use seg2_reference as reference;
use seg2_reference::generate::lay::four;
use seg2_reference::generate::model::{AreaModel, End, Model, StringModel, TraceModel};
use seg2_reference::generate::{
    plain_file, quick_case, quick_key, Laid, PlainTrace, QuickAsked, QuickCase, QuickTold, Rng,
    WAYS,
};
use seg2_reference::strings::NOTE;
use seg2_reference::worked::{example, EXAMPLE_SAMPLES};
use seg2_reference::{check, Order, Refusal, StringPlace};
use std::collections::BTreeMap;

/// Both calls with this key, alike on both sides.
fn ask(pair: &mut Pair, length: usize, trace: i32, key: &[u8]) -> [Answer; 2] {
    pair.lend_key(key);
    [Call::QuickKeyword { trace }, Call::QuickValue { trace }]
        .map(|call| pair.ask(length, call).unwrap_or_else(|d| panic!("{d}")))
}

// ---- worked files

/// The listing program's example: a value's place, a no and refusals.
#[test]
fn the_file_of_108_bytes() {
    let bytes = example();
    let mut pair = Pair::new(&Archive, 1, &bytes);
    let no = [Answer::good([0]), Answer::good([0, 0])];
    let yes = [Answer::good([1]), Answer::good([96, 1])];
    assert_eq!(ask(&mut pair, 108, 0, b"STACK"), yes);
    for key in [&b"UNITS"[..], b"NOTE", b"", b"STACKS", b"STAC", b"stack"] {
        assert_eq!(ask(&mut pair, 108, 0, key), no);
    }
    for trace in [-1, -2, 1, i32::MIN, i32::MAX] {
        let refused = Answer::refused(18, -1, 0);
        assert_eq!(ask(&mut pair, 108, trace, b"STACK"), [refused; 2]);
    }
    for (length, refused) in [
        (31, Answer::refused(1, -1, 0)),
        (109, Answer::refused(1, -1, 0)),
        (32, Answer::refused(7, -1, 4)),
        (87, Answer::refused(8, 0, 32)),
        (99, Answer::refused(10, 0, 58)),
        (107, Answer::refused(11, 0, 60)),
    ] {
        assert_eq!(ask(&mut pair, length, 0, b"STACK"), [refused; 2]);
    }
}

/// A question with these rows; a key has no say in most.
fn question(full: Call, rows: Rows) -> Question {
    let key = b"STACK".to_vec();
    Question { full, key, rows }
}

/// A question of that file, asked quickly and of the whole file.
fn both_told(pair: &mut Pair, full: Call, lent: Rows, told: Told) {
    let question = question(full, lent);
    assert_eq!(question.ask(pair, 108).as_ref(), Ok(&told), "{full:?}");
    assert_eq!(question.ask_full(pair, 108), Ok(told), "{full:?}");
}

/// The same file: every other question by hand.
#[test]
fn the_other_questions_of_108_bytes() {
    let bytes = example();
    let mut pair = Pair::new(&Archive, 3, &bytes);
    let (trace, part) = (0, 0);
    let one = 1.0_f64.to_bits();
    for (full, values) in [
        (Call::TraceBlock { trace }, &[56, 44, 8, 3, 1][..]),
        (Call::StringCount { part }, &[1]),
        (Call::String { part, index: 0 }, &[1, 90, 5, 96, 1]),
        (Call::String { part, index: 1 }, &[]),
        (Call::Number { part }, &[0, 0, 1, 0]),
        (Call::Double { part }, &[one]),
        (Call::Location { part }, &[1, one, 0, 0, 0, 0, 0]),
    ] {
        let mut all = [0; 7];
        all[..values.len()].copy_from_slice(values);
        let told = (Answer::good(all), Rows::default());
        both_told(&mut pair, full, Rows::default(), told);
    }
    let (integers, strings) = (EXAMPLE_SAMPLES.to_vec(), vec![90, 5, 96, 1]);
    #[rustfmt::skip]
    let rows = [
        (Call::Strings { part }, 0, Rows { strings: vec![7; 4], ..Rows::default() }, Rows { strings, ..Rows::default() }),
        (Call::Strings { part }, 32, Rows { strings: vec![7; 1], ..Rows::default() }, Rows::default()),
        (Call::Integers { trace }, 0, Rows { integers: vec![7; 3], ..Rows::default() }, Rows { integers, ..Rows::default() }),
        (Call::Integers { trace }, 32, Rows { integers: vec![7; 2], ..Rows::default() }, Rows::default()),
        (Call::Bits { trace }, 33, Rows { patterns: vec![7; 3], classes: vec![7; 3], ..Rows::default() }, Rows::default()),
    ];
    for (full, row, lent, filled) in rows {
        // A refusal leaves them as they were.
        let told = match row {
            0 => (Answer::good([]), filled),
            row => (Answer::refused(row, -1, 0), lent.clone()),
        };
        both_told(&mut pair, full, lent, told);
    }
    // The rows that every question has.
    for (length, trace, refused) in [
        (31, 0, Answer::refused(1, -1, 0)),
        (109, 0, Answer::refused(1, -1, 0)),
        (32, 0, Answer::refused(7, -1, 4)),
        (108, -1, Answer::refused(18, -1, 0)),
        (108, 1, Answer::refused(18, -1, 0)),
        (108, i32::MIN, Answer::refused(18, -1, 0)),
        (108, i32::MAX, Answer::refused(18, -1, 0)),
        (87, 0, Answer::refused(8, 0, 32)),
        (99, 0, Answer::refused(10, 0, 58)),
        (107, 0, Answer::refused(11, 0, 60)),
    ] {
        for question in questions(&mut Rng::new(4), trace, &[b"STACK"], 1, 3) {
            let told = question.ask(&mut pair, length);
            assert_eq!(told, Ok((refused, question.rows)));
        }
    }
    // A string's row is those questions' that look at strings; the others answer.
    let mut bytes = bytes;
    bytes[90] = b's';
    let mut pair = Pair::new(&Archive, 5, &bytes);
    let mut refused = 0;
    for question in questions(&mut Rng::new(6), 0, &[b"STACK", b"A"], 1, 3) {
        let (answer, rows) = question.ask(&mut pair, 108).expect("alike");
        if answer == Answer::refused(16, 0, 88) {
            assert_eq!(rows, question.rows);
            refused += 1;
            continue;
        }
        let on_strings = !matches!(
            question.full,
            Call::TraceBlock { .. } | Call::Integers { .. } | Call::Bits { .. }
        );
        assert!(!on_strings, "{question:?}");
    }
    assert_eq!(refused, 1 + 3 + 3 + 2 * 5);
}

/// "It may answer on a file that the full check refuses."
#[test]
fn a_broken_file_answers() {
    let strings: &[&[u8]] = &[b"STACK 1", b"UNITS m"];
    let traces = [PlainTrace::of_strings(strings); 3];
    let whole = plain_file(Order::High, &[b"CLIENT x"], &traces);
    let p = |k: usize| 32 + 12 + 16 + k * (32 + 24);
    let asked = |bytes: &[u8], trace: i32| {
        let mut pair = Pair::new(&Archive, 2, bytes);
        let full = pair.ask(bytes.len(), Call::Check).expect("alike");
        let quick = ask(&mut pair, bytes.len(), trace, b"STACK");
        (full.number, quick[1])
    };
    let value = |k: usize| Answer::good([p(k) as u64 + 32 + 8, 1]);
    assert_eq!(asked(&whole, 2), (0, value(2)));
    // The file's own string, another trace's mark, its pointer, and a string behind.
    for (at, byte, number) in [
        (32 + 12 + 2, b'c', 16),
        (p(0), 0, 9),
        (35, 1, 8),
        (p(1) + 32 + 10 + 2, b'u', 16),
    ] {
        let mut bytes = whole.clone();
        bytes[at] = byte;
        assert_eq!(asked(&bytes, 1), (number, value(1)));
    }
    // A pointer below the previous trace's end, and an earlier trace behind a later one.
    let mut bytes = whole.clone();
    bytes[40..44].copy_from_slice(&four(p(0) as u32, Order::High));
    assert_eq!(asked(&bytes, 2), (8, value(0)));
    // One channel number of three, and a bad one.
    let with: &[&[u8]] = &[b"CHANNEL_NUMBER x", b"STACK 1"];
    let traces = [strings, with, strings].map(PlainTrace::of_strings);
    let bytes = plain_file(Order::Low, &[], &traces);
    let (number, quick) = asked(&bytes, 1);
    assert_eq!((number, quick.number), (34, 0));
}

// ---- bytes that are not looked at

/// Terminators of one byte and of two.
const TERMINATORS: [(&[u8], &[u8]); 3] = [
    (&[0], &[0x0A]),
    (&[0x0D, 0x0A], &[0x1F]),
    (&[3, 3], &[0x0D, 0x0A]),
];

/// What the traces of a small file have for keywords; a NOTE has two lines.
const KEYWORDS: [&[&str]; 8] = [
    &[],
    &["STACK"],
    &["DELAY", "STACK", "UNITS"],
    &["NOTE"],
    &["DELAY", "STACK", "NOTE"],
    &["RECEIVER_GEOMETRY", "RECEIVER_GEOMETRY", "SOURCE_GEOMETRY"],
    &["CHANNEL_NUMBER", "STACK"],
    &["A", "AB", "NOT", "NOTES", "~", "NOTE"],
];

fn small_area(rng: &mut Rng, keywords: &[&str]) -> AreaModel {
    let mut strings = Vec::new();
    for (i, &keyword) in keywords.iter().enumerate() {
        let mut lines = vec![(i + 1).to_string().into_bytes()];
        if keyword == "NOTE" {
            lines.push(b"b".to_vec());
        }
        strings.push(StringModel::new(rng, keyword.into(), lines));
    }
    let end = match strings.is_empty() {
        true => End::Nothing,
        false => End::Mark(vec![7; 3]),
    };
    AreaModel { strings, end }
}

/// A small file of one to three traces with these keywords each, a gap before the last
/// trace, and bytes behind the image.
fn small_file(rng: &mut Rng, order: Order, traces: &[&[&str]], kind: usize) -> Laid {
    let (string, line) = TERMINATORS[kind];
    let mut model = Model::image(rng);
    model.order = order;
    model.slots = traces.len() as u16 + 1;
    model.string_terminator = string.to_vec();
    model.line_terminator = line.to_vec();
    model.spare_slots = vec![0xFF; 4];
    model.area = small_area(rng, &["CLIENT"]);
    model.after = vec![1, 2];
    model.beyond = vec![5; 6];
    for keywords in traces {
        let mut trace: TraceModel = Model::random(rng).traces.remove(0);
        trace.area = small_area(rng, keywords);
        trace.gap = Vec::new();
        model.traces.push(trace);
    }
    let last = model.traces.len() - 1;
    if last > 0 {
        model.traces[last].gap = vec![9; 4];
    }
    model.lay()
}

/// Keys before, equal to, between and behind all keywords, and such as can be none.
const KEYS: [&[u8]; 14] = [
    b"",
    b"A",
    b"AB",
    b"CHANNEL_NUMBER",
    b"DELAY",
    b"NOT",
    b"NOTE",
    b"NOTES",
    b"RECEIVER_GEOMETRY",
    b"STACK",
    b"STACKS",
    b"UNITS",
    b"stack",
    b"\xFF",
];

/// Of these the value is asked for as a number, too.
const NUMBERS: [&[u8]; 3] = [b"A", b"NOTE", b"STACK"];

/// The questions of a trace: whether the keys are there and their values, all others once or
/// more.
fn table(laid: &Laid, trace: i32, rng: &mut Rng) -> Vec<Question> {
    let there = laid.file.traces.get(trace as usize);
    let strings = there.map_or(1, |t| t.strings.len());
    let samples = there.map_or(1, |t| t.s as usize);
    let mut all = questions(rng, trace, &KEYS, strings, samples);
    all.retain(|question| !is_number(question) || NUMBERS.contains(&&question.key[..]));
    all
}

/// Whether a value is asked for as a number, a double or a location.
fn is_number(question: &Question) -> bool {
    matches!(
        question.full,
        Call::Number { .. } | Call::Double { .. } | Call::Location { .. }
    )
}

/// Every trace and every question of a file: each byte changed, then all at once.
fn tried(library: &dyn Library, laid: &Laid, rng: &mut Rng) -> Flips {
    let mut flips = Flips::default();
    for trace in -1..=i32::from(laid.file.n) {
        let questions = table(laid, trace, rng);
        let trial = Trial {
            buffer: &laid.buffer,
            length: laid.length,
            questions: &questions,
        };
        let each = trial.each_byte(library).unwrap_or_else(|d| panic!("{d}"));
        let all = trial.all_bytes(library, rng);
        let all = all.unwrap_or_else(|d| panic!("{d}"));
        assert_eq!((each.len(), all.len()), (questions.len(), questions.len()));
        for (each, all) in each.iter().zip(all) {
            assert!(each.beside > 0 && each.behind > 0 && each.read > 0 && all > 0);
            // A byte of what is read tells something, or it would not have to be read.
            assert!(each.telling > 0);
            flips.add(each);
        }
    }
    flips
}

/// "Two inputs of equal image and buffer length that agree on these bytes get the same
/// answer, refusals and places included."
#[test]
fn other_bytes_change_nothing() {
    let mut rng = Rng::new(1_701);
    let mut flips = Flips::default();
    let (mut accepted, mut refused) = (0, 0);
    for order in [Order::Low, Order::High] {
        for kind in 0..TERMINATORS.len() {
            for (i, one) in KEYWORDS.iter().enumerate() {
                // With as many traces as the shape's turn gives, each of another kind.
                let others = [one, &KEYWORDS[(i + 1) % 8], &KEYWORDS[(i + 3) % 8]];
                let traces: Vec<&[&str]> = others[..1 + (i + kind) % 3]
                    .iter()
                    .map(|keywords| **keywords)
                    .collect();
                let laid = small_file(&mut rng, order, &traces, kind);
                match check(&laid.buffer, laid.length) {
                    Ok(_) => accepted += 1,
                    // Some of its traces have a channel number.
                    Err(row) => refused += usize::from(row.number == 34),
                }
                flips.add(&tried(&Archive, &laid, &mut rng));
            }
        }
    }
    println!("{accepted} accepted, {refused} refused, {flips:?}");
    assert!(accepted > 30 && refused > 5 && accepted + refused == 48);
    assert!(flips.beside > 500_000 && flips.behind > 10_000, "{flips:?}");
    assert!(flips.read > 100_000 && flips.telling > 20_000, "{flips:?}");
}

/// The questions of a generated case as the archive is asked them; those of a keyword are
/// five.
fn asked_of(rng: &mut Rng, trace: i32, asked: &QuickAsked) -> Vec<Question> {
    let part = trace;
    let one = |full: Call, rows: Rows| vec![question(full, rows)];
    let none = Rows::default();
    match &asked.question {
        reference::Question::Block => one(Call::TraceBlock { trace }, none),
        reference::Question::Count => one(Call::StringCount { part }, none),
        &reference::Question::String { index } => one(Call::String { part, index }, none),
        reference::Question::Strings { row } => {
            one(Call::Strings { part }, Rows::junk(rng, 0, 0, *row))
        }
        reference::Question::Keyword { key } => keyword_questions(part)
            .map(|full| Question {
                full,
                key: key.clone(),
                rows: Rows::default(),
            })
            .to_vec(),
        reference::Question::Integers { row } => {
            one(Call::Integers { trace }, Rows::junk(rng, *row, 0, 0))
        }
        reference::Question::Bits { row, classes } => {
            one(Call::Bits { trace }, Rows::junk(rng, *row, *classes, 0))
        }
    }
}

/// The same of files that are broken in every way, as far as they are small.
#[test]
fn other_bytes_of_broken_files_change_nothing() {
    let mut flips = Flips::default();
    let mut met = [0_u64; 35];
    for number in 0..4_000 {
        let mut rng = rng_of(1_702, number);
        let case = quick_case(&mut rng);
        let Ok(trace) = i32::try_from(case.trace) else {
            continue;
        };
        for asked in &case.asked {
            let questions = asked_of(&mut rng, trace, asked);
            let trial = Trial {
                buffer: &case.buffer,
                length: case.length,
                questions: &questions,
            };
            let all = trial.all_bytes(&Archive, &mut rng);
            all.unwrap_or_else(|d| panic!("{}: {d}", case.name));
            // Each byte of the smallest files, and of others that a keyword is sought in.
            let keyword = matches!(asked.question, reference::Question::Keyword { .. });
            if case.buffer.len() > if keyword { 500 } else { 250 } {
                continue;
            }
            let each = trial.each_byte(&Archive);
            let each = each.unwrap_or_else(|d| panic!("{}: {d}", case.name));
            let refused = asked.expected.as_ref().err();
            met[refused.map_or(0, |r| usize::from(r.number))] += 1;
            for each in each {
                // Row 1 looks at no byte at all.
                assert_eq!(each.read == 0, refused.is_some_and(|r| r.number == 1));
                assert!(each.telling > 0 || refused.is_some());
                flips.add(&each);
            }
        }
    }
    let rows = (1..=18).chain([32, 33]);
    assert!(
        met[0] > 200 && rows.clone().all(|row| met[row] > 0),
        "{met:?}"
    );
    assert!(
        flips.beside > 200_000 && flips.telling > 20_000,
        "{flips:?}"
    );
    println!("{flips:?} {met:?}");
}

/// The trial does find a library that looks at more: at the whole file, at the trace's strings
/// where it needs none, at a string behind the last that it needs, at the file's own strings,
/// at the trace before, at the data.
#[test]
fn looking_at_more_is_found() {
    let keywords: &[&str] = &["DELAY", "STACK", "UNITS"];
    let laid = small_file(&mut Rng::new(1_703), Order::Low, &[keywords; 2], 0);
    let mut rng = Rng::new(1_704);
    let samples = laid.file.traces[1].s as usize;
    let all = questions(&mut rng, 1, &[b"DELAY"], 3, samples);
    #[rustfmt::skip]
    let more = [
        Way { also: Also::File, ..RIGHT },
        Way { also: Also::FilesStrings, ..RIGHT },
        Way { also: Also::Strings, ..RIGHT },
        Way { one_more: true, ..RIGHT },
        Way { first: false, ..RIGHT },
        Way { least: Least::PreviousEnd, ..RIGHT },
    ];
    for question in &all {
        let trial = Trial {
            buffer: &laid.buffer,
            length: laid.length,
            questions: std::slice::from_ref(question),
        };
        assert_eq!(trial.each_byte(&RIGHT), trial.each_byte(&Archive));
        assert!(trial.all_bytes(&RIGHT, &mut rng).is_ok());
        // All strings are judged by a count and by a row of them, and no walk ends before.
        let (walks, ends) = match question.full {
            Call::TraceBlock { .. } | Call::Integers { .. } | Call::Bits { .. } => (false, false),
            Call::StringCount { .. } | Call::Strings { .. } => (true, false),
            Call::String { index, .. } => (true, index < 3),
            _ => (true, true),
        };
        for (i, way) in more.iter().enumerate() {
            let looks_at_more = match way {
                Way {
                    also: Also::Strings,
                    ..
                } => !walks || ends,
                Way { one_more: true, .. } | Way { first: false, .. } => ends,
                _ => true,
            };
            assert_eq!(
                trial.each_byte(way).is_err(),
                looks_at_more,
                "{i} {question:?}"
            );
            let found = trial.all_bytes(way, &mut rng).is_err();
            assert_eq!(found, looks_at_more, "{i} {question:?}");
        }
    }
}

// ---- accepted files

/// "On every file that the full check accepts, the answer equals the full one": by the
/// archive's own calls, rows included, for every trace number from 0 on.
#[test]
fn accepted_files_answer_as_the_full_question() {
    let (mut yes, mut no) = (0, 0);
    let mut met: BTreeMap<&str, [u64; 35]> = BTreeMap::new();
    for number in 0..3_000 {
        let mut rng = rng_of(1_705, number);
        let laid = Model::random(&mut rng).lay();
        let length = laid.length;
        let mut pair = Pair::new(&Archive, number, &laid.buffer);
        assert_eq!(pair.ask(length, Call::Check), Ok(Answer::good([])));
        let n = i32::from(laid.file.n);
        for trace in (0..n.min(5)).chain([n, n + 1, -2, i32::MIN, i32::MAX]) {
            let part = i64::from(trace.clamp(0, n - 1));
            let word = |s: &StringPlace| laid.buffer[s.keyword.clone()].to_vec();
            let words: Vec<Vec<u8>> = laid.strings(part).iter().map(word).collect();
            let near: Vec<Vec<u8>> = (0..6).map(|_| quick_key(&mut rng, &words)).collect();
            let keys: Vec<&[u8]> = words.iter().chain(&near).map(|key| &key[..]).collect();
            let samples = laid.file.traces[part as usize].s as usize;
            let mut all = questions(&mut rng, trace, &keys, words.len(), samples);
            // As numbers and so on, the values that are there, and one that is not.
            all.retain(|q| !is_number(q) || words.contains(&q.key) || q.key == near[0]);
            for question in all {
                let quick = question.ask(&mut pair, length).expect("alike");
                let full = question.ask_full(&mut pair, length).expect("alike");
                assert_eq!(quick, full, "{question:?}");
                let name = question.quick().name();
                let met = met.entry(name).or_insert([0; 35]);
                met[quick.0.number as usize] += 1;
                let found = matches!(question.full, Call::Keyword { .. });
                yes += u64::from(found && quick.0 == Answer::good([1]));
                no += u64::from(found && quick.0 == Answer::good([0]));
            }
        }
        // "It is asked of traces only."
        let refused = Answer::refused(18, -1, 0);
        for question in questions(&mut rng, -1, &[b"UNITS"], 1, 1) {
            let told = question.ask(&mut pair, length);
            assert_eq!(told, Ok((refused, question.rows)));
        }
    }
    assert!(yes > 5_000 && no > 5_000, "{yes} {no}");
    // Each question with every row that a file which keeps the rules leaves it.
    for (name, rows) in [
        ("quick_trace_block", &[][..]),
        ("quick_string_count", &[]),
        ("quick_string", &[]),
        ("quick_strings", &[32]),
        ("quick_keyword", &[]),
        ("quick_value", &[]),
        ("quick_number", &[20]),
        ("quick_double", &[20]),
        ("quick_location", &[20, 23]),
        ("quick_integers", &[32, 33]),
        ("quick_bits", &[32, 33]),
    ] {
        for &row in [0, 18].iter().chain(rows) {
            assert!(met[name][row] > 20, "{name}: {:?}", met[name]);
        }
    }
}

// ---- generated questions

/// Answers that the layout tells, through the archive: every row but 34, often, and many
/// on files that the full check refuses.
#[test]
fn generated_questions() {
    let mut met = [0_u64; 35];
    let mut apart = 0;
    for number in 0..40_000 {
        let mut rng = rng_of(1_706, number);
        let case: QuickCase = quick_case(&mut rng);
        let Ok(trace) = i32::try_from(case.trace) else {
            continue;
        };
        let mut pair = Pair::new(&Archive, number, &case.buffer);
        let refused = check(&case.buffer, case.length).is_err();
        for asked in &case.asked {
            for question in asked_of(&mut rng, trace, asked) {
                let told = question.ask(&mut pair, case.length).expect("alike");
                let is_told = as_told(&question, &asked.expected, &told);
                assert!(is_told, "{} {question:?} {told:?}", case.name);
                met[told.0.number as usize] += 1;
                apart += u64::from(refused && told.0.number == 0);
            }
        }
    }
    let rows = (0..=18).chain([32, 33]);
    assert!(rows.clone().all(|row| met[row] > 20), "{met:?}");
    // Of numbers the layout tells the text only; 19, 24 to 31 and 34 are none of these.
    assert_eq!((met[19], met[34]), (0, 0), "{met:?}");
    assert_eq!(met[24..32], [0; 8], "{met:?}");
    assert!(apart > 20_000, "{apart}");
}

/// Whether the answer and the rows behind it are what the layout tells.
fn as_told(question: &Question, expected: &Result<QuickTold, Refusal>, told: &Told) -> bool {
    let (answer, rows) = told;
    let told = match expected {
        Err(r) => {
            let refused = Answer::refused(r.number.into(), r.part as i32, r.place as usize);
            return *answer == refused && *rows == question.rows;
        }
        Ok(told) => told,
    };
    let mut left = question.rows.clone();
    let is_it = match (told, question.full) {
        (QuickTold::Block(t), _) => {
            let [p, d, s] = [t.p, t.d, t.s].map(u64::from);
            *answer == Answer::good([p, t.b.into(), d, s, t.code.into()])
        }
        (QuickTold::Count(count), _) => *answer == Answer::good([*count as u64]),
        (QuickTold::String(None), _) => *answer == Answer::good([]),
        (QuickTold::String(Some(s)), _) => {
            let [a, b] = [s.keyword.start, s.keyword.len()].map(|n| n as u64);
            let [c, d] = [s.value.start, s.value.len()].map(|n| n as u64);
            *answer == Answer::good([1, a, b, c, d])
        }
        (QuickTold::Strings(row), _) => {
            left.strings = row.clone();
            *answer == Answer::good([])
        }
        (QuickTold::Keyword(found), Call::Keyword { .. }) => {
            *answer == Answer::good([found.is_some().into()])
        }
        (QuickTold::Keyword(found), Call::Value { .. }) => {
            let value = found.clone().unwrap_or(0..0);
            *answer == Answer::good([value.start as u64, value.len() as u64])
        }
        // An absent keyword is no number and no location.
        (QuickTold::Keyword(None), Call::Location { .. }) => *answer == Answer::refused(23, -1, 0),
        (QuickTold::Keyword(None), _) => *answer == Answer::refused(20, -1, 0),
        (QuickTold::Keyword(Some(_)), _) => {
            answer.number == 0 || (20..=23).contains(&answer.number)
        }
        (QuickTold::Integers(row), _) => {
            left.integers = row.clone();
            *answer == Answer::good([])
        }
        (QuickTold::Bits(row, classes), _) => {
            left.patterns = row.clone();
            left.classes = classes.clone();
            *answer == Answer::good([])
        }
    };
    is_it && *rows == left
}

/// Every question about such files, lent memory included.
#[test]
fn every_question_of_such_files() {
    let tally = all_alike(1_707, 12_000, draw::one_trace);
    for number in (0..=18).chain([32, 33, 34]) {
        assert!(tally.met[number] > 100, "{number}: {:?}", tally.met);
    }
}

// ---- libraries that search otherwise

/// Files for the question, damages by every way, then some cases of every kind.
fn cases() -> Vec<Case> {
    let quick = |number| draw::one_trace(&mut rng_of(1_801, number));
    let mut cases: Vec<Case> = (0..1_500).map(quick).collect();
    for (i, way) in WAYS.iter().enumerate() {
        let damaged = |number| draw::damaged_by(&mut rng_of(1_811 + i as u64, number), way);
        cases.extend((0..8).map(damaged));
    }
    for (i, (_, draw)) in KINDS.iter().enumerate() {
        cases.extend((0..20).map(|number| draw(&mut rng_of(1_901 + i as u64, number))));
    }
    cases
}

/// NOTE ends every search but for its own, in the right way.
fn note_or_greater(met: &[u8], key: &[u8]) -> bool {
    met == NOTE || met > key
}

/// Questions by what they look at.
const KEYED: [&str; 5] = [
    "quick_keyword",
    "quick_value",
    "quick_number",
    "quick_double",
    "quick_location",
];
const LISTED: [&str; 3] = ["quick_string_count", "quick_string", "quick_strings"];
const SAMPLED: [&str; 2] = ["quick_integers", "quick_bits"];
const STRING: [&str; 1] = ["quick_string"];
const STRINGS: [&str; 1] = ["quick_strings"];
const NUMBERED: [&str; 3] = ["quick_number", "quick_double", "quick_location"];

/// Those that look at strings, and those that end before the last of them.
fn walking() -> Vec<&'static str> {
    [&KEYED[..], &LISTED].concat()
}

fn ending() -> Vec<&'static str> {
    [&KEYED[..], &STRING].concat()
}

fn every() -> Vec<&'static str> {
    [&["quick_trace_block"], &walking()[..], &SAMPLED].concat()
}

/// How many samples fill the data.
fn as_many_as_fit(block: &reference::Trace) -> usize {
    let size = match block.code {
        1 => 2,
        5 => 8,
        _ => 4,
    };
    block.d as usize / size
}

/// Each wrong way, by its fault, and the questions that it makes wrong.
#[rustfmt::skip]
fn wrong_ways() -> Vec<(&'static str, Vec<&'static str>, Way)> {
    vec![
        ("stops one string early", walking(), Way { last: false, ..RIGHT }),
        ("a passed string is not judged", KEYED.to_vec(), Way { judges: |turn| turn != Turn::Passed, ..RIGHT }),
        ("a found string is not judged", ending(), Way { judges: |turn| turn != Turn::Found, ..RIGHT }),
        ("strings before are not judged", walking(), Way { judges: |turn| turn != Turn::Before, ..RIGHT }),
        ("the order is not judged", walking(), Way { in_order: false, ..RIGHT }),
        ("a string behind is judged", ending(), Way { one_more: true, ..RIGHT }),
        ("NOTE is passed when it is asked for", KEYED.to_vec(), Way { passes: note_or_greater, ..RIGHT }),
        ("NOTE passes by byte order alone", KEYED.to_vec(), Way { passes: |met, key| key != NOTE && met > key, ..RIGHT }),
        ("nothing is passed", KEYED.to_vec(), Way { passes: |_, _| false, ..RIGHT }),
        ("only NOTE passes", KEYED.to_vec(), Way { passes: |met, key| key != NOTE && met == NOTE, ..RIGHT }),
        ("a longer keyword does not pass its prefix", KEYED.to_vec(), Way { passes: |met, key| (RIGHT.passes)(met, key) && (met == NOTE || !met.starts_with(key)), ..RIGHT }),
        ("a prefix passes the longer key", KEYED.to_vec(), Way { passes: |met, key| (RIGHT.passes)(met, key) || key != NOTE && key.starts_with(met), ..RIGHT }),
        ("the first bytes alone are compared", KEYED.to_vec(), Way { passes: |met, key| key != NOTE && (met == NOTE || met.first() > key.first()), ..RIGHT }),
        ("bytes are signed", KEYED.to_vec(), Way { passes: |met, key| key != NOTE && (met == NOTE || met.iter().map(|&c| c as i8).gt(key.iter().map(|&c| c as i8))), ..RIGHT }),
        ("a prefix is found", KEYED.to_vec(), Way { is: |met, key| met.starts_with(key), ..RIGHT }),
        ("lower case is found", KEYED.to_vec(), Way { is: |met, key| met.eq_ignore_ascii_case(key), ..RIGHT }),
        ("the last of the repeats", KEYED.to_vec(), Way { first: false, ..RIGHT }),
        ("the value of a no is where the area starts", vec!["quick_value"], Way { no: |start| start, ..RIGHT }),
        ("no end mark is needed", walking(), Way { end_mark: false, ..RIGHT }),
        ("a pointer is compared with the previous trace's end", every(), Way { least: Least::PreviousEnd, ..RIGHT }),
        ("a pointer may lead into the pointer room", every(), Way { least: Least::Head, ..RIGHT }),
        ("18 behind 8", every(), Way { before_8: false, ..RIGHT }),
        ("the next trace is read", every(), Way { slot: |k| k + 1, ..RIGHT }),
        ("the trace before is read", every(), Way { slot: |k| k.saturating_sub(1), ..RIGHT }),
        ("the first trace is read", every(), Way { slot: |_| 0, ..RIGHT }),
        ("rows 11 to 13 are not judged", every(), Way { samples: false, ..RIGHT }),
        ("34 is given", every(), Way { also: Also::Row34, ..RIGHT }),
        ("the whole file is judged", every(), Way { also: Also::File, ..RIGHT }),
        ("the file's own strings are judged", every(), Way { also: Also::FilesStrings, ..RIGHT }),
        ("all strings are judged", [&["quick_trace_block"], &ending()[..], &SAMPLED].concat(), Way { also: Also::Strings, ..RIGHT }),
        ("-1 is the file", every(), Way { of_file: true, ..RIGHT }),
        ("without traces it is 18", every(), Way { without_traces: 18, ..RIGHT }),
        ("the part is the file's", every(), Way { part: |_| -1, ..RIGHT }),
        ("the part is counted from 1", every(), Way { part: |k| k + 1, ..RIGHT }),
        ("an index is counted from 1", STRING.to_vec(), Way { index: |i| i.wrapping_sub(1), ..RIGHT }),
        ("the string behind is answered", STRING.to_vec(), Way { index: |i| i.saturating_add(1), ..RIGHT }),
        ("past the last is the last", STRING.to_vec(), Way { index: |i| i.min(2), ..RIGHT }),
        ("past the last is refused", STRING.to_vec(), Way { past: Some(18), ..RIGHT }),
        ("32 before the strings", STRINGS.to_vec(), Way { strings_first: false, ..RIGHT }),
        ("a longer row will do", [&STRINGS[..], &SAMPLED].concat(), Way { fits: |row, count| row >= count, ..RIGHT }),
        ("a shorter row will do", [&STRINGS[..], &SAMPLED].concat(), Way { fits: |row, count| row <= count, ..RIGHT }),
        ("a row has a number for each string", STRINGS.to_vec(), Way { fits: |row, count| row == count / 4, ..RIGHT }),
        ("a row is filled before it is refused", [&STRINGS[..], &SAMPLED].concat(), Way { fills_first: true, ..RIGHT }),
        ("values before keywords", STRINGS.to_vec(), Way { four: |[a, b, c, d], _| [c, d, a, b], ..RIGHT }),
        ("ends for lengths", STRINGS.to_vec(), Way { four: |[a, b, c, d], _| [a, a + b, c, c + d], ..RIGHT }),
        ("places counted from the trace", STRINGS.to_vec(), Way { four: |[a, b, c, d], p| [a - p, b, c - p, d], ..RIGHT }),
        ("the last element is not written", [&STRINGS[..], &SAMPLED].concat(), Way { whole: false, ..RIGHT }),
        ("32 before 33", SAMPLED.to_vec(), Way { kind_first: false, ..RIGHT }),
        ("the row of classes is not measured", vec!["quick_bits"], Way { classes: false, ..RIGHT }),
        ("as many samples as the data hold", SAMPLED.to_vec(), Way { count: as_many_as_fit, ..RIGHT }),
        ("data where the strings start", SAMPLED.to_vec(), Way { data: |block| block.p as usize + 32, ..RIGHT }),
        ("B for the data's place in the file", SAMPLED.to_vec(), Way { data: |block| block.b.into(), ..RIGHT }),
        ("a value's place in the file", vec!["quick_location"], Way { text: |row, start| Refusal { place: row.place + start as u64, ..row }, ..RIGHT }),
        ("a value's refusal is the trace's", NUMBERED.to_vec(), Way { text: |row, _| Refusal { part: 0, ..row }, ..RIGHT }),
        ("23 is 20", vec!["quick_location"], Way { text: |row, _| Refusal { number: row.number.min(22), ..row }, ..RIGHT }),
        ("an absent number is 0", NUMBERED.to_vec(), Way { absent_is_empty: false, ..RIGHT }),
    ]
}

/// The third reading is right, so what is noticed below is the fault and nothing else.
#[test]
fn the_right_way_is_alike() {
    for case in cases() {
        if let Err(difference) = case.compare(&RIGHT) {
            panic!("{difference}\n{}", seg2_differential::text::written(&case));
        }
    }
}

/// In each question by itself: the others are the archive's.
#[test]
fn each_wrong_way_is_noticed() {
    let cases = cases();
    let mut tried = 0;
    for (fault, functions, way) in wrong_ways() {
        for name in functions {
            let function = Some(name);
            let wrong = Way { function, ..way };
            let noticed = cases.iter().any(|case| case.compare(&wrong).is_err());
            assert!(noticed, "{name}: {fault}");
            tried += 1;
        }
    }
    println!("{tried} faults noticed");
}
