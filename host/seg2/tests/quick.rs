//! One trace, quickly (document 02, §5), by the wrapper: every quick call beside the full
//! one where the check accepts the file, and alone where it refuses it for what is not read.

mod own;

use own::refusal as ours;
use seg2::{calls, Bits, Builder, File, Order, Pair, Quick, Refusal};
use seg2_reference as reference;
use seg2_reference::generate::{mutated, plain_file, Model, PlainTrace, Rng};

type Told = (u32, i32, usize);

fn told<T: std::fmt::Debug>(answer: Result<T, Refusal>) -> Told {
    let refusal = answer.expect_err("a refusal");
    (refusal.number, refusal.part, refusal.place)
}

/// Low byte first, with a string of the file's own; each trace has the strings of a list.
fn file_of(traces: &[&[&[u8]]]) -> Vec<u8> {
    let traces: Vec<_> = traces.iter().map(|t| PlainTrace::of_strings(t)).collect();
    plain_file(reference::Order::Low, &[b"UNITS METERS"], &traces)
}

/// The pointer of a trace in such a file.
fn start(bytes: &[u8], trace: usize) -> usize {
    let slot = 32 + 4 * trace;
    u32::from_le_bytes(bytes[slot..slot + 4].try_into().expect("4 bytes")) as usize
}

/// Where a text stands for the last time.
fn last(bytes: &[u8], text: &[u8]) -> usize {
    let found = bytes.windows(text.len()).rposition(|w| w == text);
    found.expect("the text")
}

/// The same bytes with others put in at a place.
fn changed(bytes: &[u8], at: usize, new: &[u8]) -> Vec<u8> {
    let mut bytes = bytes.to_vec();
    bytes[at..at + new.len()].copy_from_slice(new);
    bytes
}

// ---- where the check accepts the file

/// Keywords of a trace, what stands before, between and behind them, and what is none.
fn keys<'a>(strings: impl Iterator<Item = Pair<'a>>) -> Vec<Vec<u8>> {
    let mut keys: Vec<Vec<u8>> = ["", "NOTE", "NOTE ", "NOT", "STACK", "note", "\u{e9}", "~~"]
        .map(|key| key.as_bytes().to_vec())
        .into();
    for (keyword, _) in strings {
        keys.push(keyword.to_vec());
        keys.push(keyword[..keyword.len() - 1].to_vec());
        keys.push([keyword, b"!"].concat());
        keys.push(keyword.to_ascii_lowercase());
    }
    keys
}

/// The answers of each quick call on a trace, whole, beside those of the full one; rows too,
/// of the right length and of others.
fn quick_is_full(buffer: &[u8], length: usize, trace: i32, keys: &[Vec<u8>]) {
    let (b, n, k) = (buffer, length, trace);
    let block = calls::trace_block(b, n, k);
    assert_eq!(calls::quick_trace_block(b, n, k), block);
    let count = calls::string_count(b, n, k);
    assert_eq!(calls::quick_string_count(b, n, k), count);
    for index in [
        0,
        1,
        2,
        count.count.wrapping_sub(1),
        count.count,
        usize::MAX,
    ] {
        let string = calls::string(b, n, k, index);
        assert_eq!(calls::quick_string(b, n, k, index), string);
    }
    for key in keys {
        assert_eq!(
            calls::quick_keyword(b, n, k, key),
            calls::keyword(b, n, k, key)
        );
        assert_eq!(calls::quick_value(b, n, k, key), calls::value(b, n, k, key));
        assert_eq!(
            calls::quick_number(b, n, k, key),
            calls::number(b, n, k, key)
        );
        assert_eq!(
            calls::quick_double(b, n, k, key),
            calls::double(b, n, k, key)
        );
        let location = calls::location(b, n, k, key);
        assert_eq!(calls::quick_location(b, n, k, key), location);
    }
    for size in [4 * count.count, 4 * count.count + 1, count.count] {
        let (mut full, mut quick) = (vec![7; size], vec![7; size]);
        let answer = calls::strings(b, n, k, &mut full);
        assert_eq!(calls::quick_strings(b, n, k, &mut quick), answer);
        assert_eq!(quick, full);
    }
    for size in [block.sample_count, block.sample_count + 1] {
        let (mut full, mut quick) = (vec![7; size], vec![7; size]);
        let answer = calls::integers(b, n, k, &mut full);
        assert_eq!(calls::quick_integers(b, n, k, &mut quick), answer);
        assert_eq!(quick, full);
        for classes in [size, block.sample_count] {
            let (mut full, mut full_classes) = (vec![7; size], vec![7; classes]);
            let (mut quick, mut quick_classes) = (full.clone(), full_classes.clone());
            let answer = calls::bits(b, n, k, &mut full, &mut full_classes);
            let quickly = calls::quick_bits(b, n, k, &mut quick, &mut quick_classes);
            assert_eq!(
                (quickly, quick, quick_classes),
                (answer, full, full_classes)
            );
        }
    }
}

#[test]
fn on_an_accepted_file_each_call_answers_as_the_full_one() {
    let mut rng = Rng::new(221);
    for _ in 0..800 {
        let laid = Model::random(&mut rng).lay();
        let file = File::open_prefix(&laid.buffer, laid.length).expect("a valid file");
        for trace in file.traces() {
            let keys = keys(trace.strings());
            quick_is_full(&laid.buffer, laid.length, trace.index() as i32, &keys);
        }
        let past = file.trace_count() as i32;
        quick_is_full(&laid.buffer, laid.length, past, &[b"STACK".to_vec()]);
        quick_is_full(&laid.buffer, laid.length, i32::MAX, &[b"STACK".to_vec()]);
    }
}

#[test]
fn on_an_accepted_file_it_answers_as_the_trace_does() {
    let mut rng = Rng::new(223);
    let (mut found, mut missing, mut lines, mut numbers) = (0, 0, 0, 0);
    for _ in 0..1000 {
        let laid = Model::random(&mut rng).lay();
        let file = File::open_prefix(&laid.buffer, laid.length).expect("a valid file");
        let quick = Quick::prefix(&laid.buffer, laid.length);
        for (k, trace) in file.traces().enumerate() {
            let strings: Vec<Pair> = trace.strings().collect();
            for key in keys(strings.iter().copied()) {
                // the first with the keyword, as the reference reads the strings
                let value = strings.iter().find(|(keyword, _)| *keyword == key);
                let value = value.map(|(_, value)| *value);
                assert_eq!(trace.value(&key), value);
                assert_eq!(trace.has(&key), value.is_some());
                assert_eq!(quick.has(k, &key), Ok(value.is_some()));
                assert_eq!(quick.value(k, &key), Ok(value));
                let own = quick.value(k, &key).expect("an answer");
                assert_eq!(own.map(<[u8]>::as_ptr), value.map(<[u8]>::as_ptr));
                assert_eq!(quick.number(k, &key), trace.number(&key));
                assert_eq!(quick.double(k, &key), trace.double(&key));
                assert_eq!(quick.location(k, &key), trace.location(&key));
                found += usize::from(value.is_some());
                missing += usize::from(value.is_none());
                numbers += usize::from(trace.number(&key).is_ok());
            }
            assert_eq!(quick.block(k), Ok(trace.block()));
            assert_eq!(quick.string_count(k), Ok(strings.len()));
            assert_eq!(quick.strings(k).map(Vec::from_iter).as_ref(), Ok(&strings));
            assert_eq!(quick.integers(k), trace.integers());
            assert_eq!(quick.bits(k), trace.bits());
            let bits = |row: Vec<f64>| row.into_iter().map(f64::to_bits).collect::<Vec<_>>();
            assert_eq!(quick.doubles(k).map(bits), trace.doubles().map(bits));
            let note: Vec<_> = quick.note(k).expect("an answer").collect();
            assert_eq!(note, trace.note().collect::<Vec<_>>());
            lines += note.len();
        }
        let past = quick.has(file.trace_count(), b"STACK");
        assert_eq!(told(past), (18, -1, 0));
    }
    assert!(
        found > 1000 && missing > 1000 && lines > 300 && numbers > 300,
        "{found} {missing} {lines} {numbers}"
    );
}

#[test]
fn a_value_is_the_callers_own_bytes() {
    let bytes = file_of(&[&[b"A", b"LINE_ID  ", b"STACK\t 4"]]);
    let quick = Quick::new(&bytes);
    for (key, value) in [(&b"A"[..], &b""[..]), (b"LINE_ID", b""), (b"STACK", b"4")] {
        let found = quick.value(0, key).expect("an answer").expect("a value");
        assert_eq!(found, value);
        let area = bytes[start(&bytes, 0) + 32..].as_ptr_range();
        assert!(area.contains(&found.as_ptr()), "{key:?}");
    }
    // a no is no value, and another thing than an empty one
    for key in [&b""[..], b"B", b"LINE", b"STACKS", b"NOTE", b"stack"] {
        assert_eq!(quick.value(0, key), Ok(None));
        assert_eq!(quick.has(0, key), Ok(false));
    }
}

#[test]
fn of_several_receivers_the_first_answers() {
    let geometry: [&[u8]; 3] = [b"RECEIVER_GEOMETRY -5", b"RECEIVER_GEOMETRY 5", b"STACK 4"];
    let bytes = file_of(&[&geometry, &geometry[1..]]);
    let quick = Quick::new(&bytes);
    assert_eq!(quick.value(0, b"RECEIVER_GEOMETRY"), Ok(Some(&b"-5"[..])));
    assert_eq!(quick.value(1, b"RECEIVER_GEOMETRY"), Ok(Some(&b"5"[..])));
    assert_eq!(quick.value(0, b"STACK"), Ok(Some(&b"4"[..])));
}

/// One value of a file of many traces is the value of its trace, the first and the last.
#[test]
fn every_trace_of_a_long_file_has_its_own_value() {
    let mut shot = Builder::start(Order::High, 2000, b"").expect("a start");
    for k in 0..2000 {
        let sheet = format!("DELAY\t0\nSTACK\t{}\n", k + 1);
        shot.add_integers(sheet.as_bytes(), 1, &[k, 2])
            .expect("a trace");
    }
    let quick = Quick::new(shot.bytes());
    for k in 0..2000 {
        let value = (k + 1).to_string();
        assert_eq!(quick.value(k, b"STACK"), Ok(Some(value.as_bytes())));
        assert_eq!(
            quick.string(k, 1),
            Ok(Some((&b"STACK"[..], value.as_bytes())))
        );
        assert_eq!(
            quick.number(k, b"STACK").map(|n| n.coefficient),
            Ok(k as u64 + 1)
        );
        assert_eq!(quick.integers(k), Ok(vec![k as i32, 2]));
    }
}

// ---- where it refuses it

/// A file that is refused by a number, whose trace still answers 4 for STACK, and its block
/// and samples as before.
fn answers(bytes: &[u8], number: u32, trace: usize) {
    let refusal = File::open(bytes).expect_err("a file that is refused");
    assert_eq!(refusal.number, number, "{refusal}");
    let quick = Quick::new(bytes);
    assert_eq!(quick.has(trace, b"STACK"), Ok(true), "{refusal}");
    assert_eq!(quick.value(trace, b"STACK"), Ok(Some(&b"4"[..])));
    assert_eq!(quick.number(trace, b"STACK").map(|n| n.coefficient), Ok(4));
    assert_eq!(quick.double(trace, b"STACK"), Ok(4.0));
    assert_eq!(quick.location(trace, b"STACK").map(|at| at.x), Ok(4.0));
    let block = quick.block(trace).expect("a block");
    assert_eq!((block.sample_count, block.code), (0, 1));
    assert_eq!(quick.integers(trace), Ok(vec![]));
    let strings = quick.strings(trace).map(|strings| strings.len());
    assert_eq!(strings, quick.string_count(trace));
}

#[test]
fn it_answers_where_what_is_wrong_is_not_read() {
    let strings: &[&[u8]] = &[b"DELAY 0", b"STACK 4", b"UNITS FEET", b"NOTE X"];
    let bytes = file_of(&[strings; 3]);
    let (one, two) = (start(&bytes, 1), start(&bytes, 2));
    let pointer = |trace: usize, p: usize| {
        let p = u32::try_from(p).expect("a pointer");
        changed(&bytes, 32 + 4 * trace, &p.to_le_bytes())
    };
    // the file's own strings, the other blocks, the other pointers
    answers(&changed(&bytes, 46, b"u"), 16, 1);
    answers(&changed(&bytes, one, &[0]), 9, 0);
    answers(&changed(&bytes, one, &[0]), 9, 2);
    answers(&changed(&bytes, one + 12, &[6]), 12, 2);
    answers(&pointer(1, one + 2), 8, 2);
    answers(&pointer(1, bytes.len()), 8, 0);
    answers(&pointer(2, one), 8, 2);
    // what stands behind the found string, up to the end mark
    for (text, new, number) in [
        (&b"UNITS"[..], &b"uNITS"[..], 16),
        (b"UNITS FEET", b"UNITS F\0ET", 16),
        (b"UNITS FEET\0", b"UNITS FEETS", 15),
        (b"UNITS", b"ANITS", 17),
        (b"NOTE X", b"ALSO X", 17),
    ] {
        answers(&changed(&bytes, last(&bytes, text), new), number, 2);
    }
    let units = last(&bytes, b"UNITS FEET");
    answers(&changed(&bytes, units - 2, &[3, 0]), 14, 2);
    answers(&changed(&bytes, units - 2, &[0xFF, 0xFF]), 14, 2);
    // each trace may stand in another: "below 32+M" is all that is asked of a pointer
    let inside = [&bytes[..], &bytes[two..]].concat();
    let mut inside = changed(
        &inside,
        two + 4,
        &((bytes.len() - two) as u32).to_le_bytes(),
    );
    inside[40..44].copy_from_slice(&(bytes.len() as u32).to_le_bytes());
    inside[36..40].copy_from_slice(&(two as u32).to_le_bytes());
    answers(&inside, 8, 1);
    answers(&inside, 8, 2);
}

/// Where another trace is broken, and the file is refused for it, every question answers as
/// it did before.
#[test]
fn every_question_answers_beside_a_broken_trace() {
    let strings: &[&[u8]] = &[b"DELAY -0.5", b"STACK 4", b"NOTE X"];
    let of = |code, data| PlainTrace {
        strings,
        code,
        count: 2,
        data,
    };
    let (longs, singles) = (&[1, 0, 0, 0, 2, 0, 0, 0], &[0, 0, 0x80, 0x3F, 0, 0, 0, 0]);
    let traces = [of(2, longs), of(2, longs), of(4, singles)];
    let good = plain_file(reference::Order::Low, &[b"UNITS METERS"], &traces);
    let broken = changed(&good, start(&good, 0), &[0]);
    assert_eq!(told(File::open(&broken)).0, 9);
    let (sound, quick) = (Quick::new(&good), Quick::new(&broken));
    for trace in [1, 2] {
        assert!(quick.block(trace).is_ok());
        assert_eq!(quick.block(trace), sound.block(trace));
        assert_eq!(quick.string_count(trace), Ok(3));
        assert_eq!(quick.string(trace, 1), Ok(Some((&b"STACK"[..], &b"4"[..]))));
        assert_eq!(quick.strings(trace).map(|strings| strings.len()), Ok(3));
        assert_eq!(quick.has(trace, b"STACK"), Ok(true));
        assert_eq!(quick.value(trace, b"STACK"), Ok(Some(&b"4"[..])));
        assert_eq!(quick.note(trace).map(Vec::from_iter), Ok(vec![&b"X"[..]]));
        assert_eq!(quick.number(trace, b"STACK").map(|n| n.coefficient), Ok(4));
        assert_eq!(quick.double(trace, b"DELAY"), Ok(-0.5));
        assert_eq!(quick.location(trace, b"DELAY").map(|at| at.x), Ok(-0.5));
    }
    assert_eq!(quick.integers(1), Ok(vec![1, 2]));
    assert_eq!(quick.doubles(1), Ok(vec![1.0, 2.0]));
    assert_eq!(quick.bits(2).map(|bits| bits.classes), Ok(vec![2, 0]));
    assert_eq!(quick.doubles(2), Ok(vec![1.0, 0.0]));
}

/// Document 02, §7 is of all traces, and this question of one: 34 is never given.
#[test]
fn channel_numbers_of_some_traces_are_no_matter() {
    let (with, without): (&[&[u8]], &[&[u8]]) = (&[b"CHANNEL_NUMBER 5", b"STACK 4"], &[b"STACK 4"]);
    let bad: &[&[u8]] = &[b"CHANNEL_NUMBER none", b"STACK 4"];
    for traces in [[with, without], [without, with], [bad, bad], [with, bad]] {
        let bytes = file_of(&traces);
        answers(&bytes, 34, 0);
        answers(&bytes, 34, 1);
        let channel = Quick::new(&bytes).value(1, b"CHANNEL_NUMBER");
        assert_eq!(channel.map(|c| c.is_some()), Ok(traces[1].len() == 2));
    }
}

/// A string that breaks a rule matters up to the one that is found or passed, which is
/// read whole.
#[test]
fn strings_are_judged_until_the_keyword_is_found_or_passed() {
    let strings: &[&[u8]] = &[b"B 1", b"D 2", b"H 3", b"UNITS 4", b"NOTE 5"];
    let good = file_of(&[strings]);
    for (key, read) in [
        ("", 1),
        ("A", 1),
        ("B", 1),
        ("B!", 2),
        ("C", 2),
        ("D", 2),
        ("E", 3),
        ("H", 3),
        ("NOTE", 5),
        ("NOTE2", 4),
        ("UNITS", 4),
        ("V", 5),
        ("b", 5),
        ("\u{e9}", 5),
    ] {
        for (i, text) in strings.iter().enumerate() {
            let bytes = changed(&good, last(&good, text), b"b");
            let answer = Quick::new(&bytes).value(0, key.as_bytes());
            if i >= read {
                assert_eq!(answer, Quick::new(&good).value(0, key.as_bytes()));
                continue;
            }
            let place = last(&good, text) - 2;
            assert_eq!(told(answer), (16, 0, place), "{key}: string {i}");
            let has = Quick::new(&bytes).has(0, key.as_bytes());
            assert_eq!(told(has), (16, 0, place));
        }
    }
}

/// A string that breaks a rule matters to a question by index up to that index, to a question
/// on all strings always, and to the block and the samples never.
#[test]
fn strings_are_judged_as_far_as_the_question_goes() {
    let strings: &[&[u8]] = &[b"B 1", b"D 2", b"H 3", b"UNITS 4", b"NOTE 5"];
    let trace = PlainTrace {
        strings,
        code: 2,
        count: 2,
        data: &[1, 0, 0, 0, 0xFF, 0xFF, 0xFF, 0xFF],
    };
    let good = plain_file(reference::Order::Low, &[b"UNITS METERS"], &[trace]);
    for (i, text) in strings.iter().enumerate() {
        let bytes = changed(&good, last(&good, text), b"b");
        let quick = Quick::new(&bytes);
        let refused = (16, 0, last(&good, text) - 2);
        for index in 0..8 {
            let answer = quick.string(0, index);
            if index < i {
                assert_eq!(answer, Quick::new(&good).string(0, index));
            } else {
                assert_eq!(told(answer), refused, "string {index} behind {i}");
            }
        }
        assert_eq!(told(quick.string_count(0)), refused);
        assert_eq!(told(quick.strings(0)), refused);
        // 14 to 17 come before 32, and the row is as it was
        let mut row = [7; 3];
        let answer = calls::quick_strings(&bytes, bytes.len(), 0, &mut row);
        assert_eq!((told(answer.told()), row), (refused, [7; 3]));
        assert_eq!(quick.block(0), Quick::new(&good).block(0));
        assert_eq!(quick.integers(0), Ok(vec![1, -1]));
        assert_eq!(quick.doubles(0), Ok(vec![1.0, -1.0]));
    }
    // without an end mark the string before it still answers
    let end = last(&good, b"NOTE 5") + 7;
    let bytes = changed(&good, end, &[1, 0]);
    let quick = Quick::new(&bytes);
    assert_eq!(quick.string(0, 4), Ok(Some((&b"NOTE"[..], &b"5"[..]))));
    for answer in [
        quick.string(0, 5).map(|s| s.is_some()),
        quick.strings(0).map(|_| true),
    ] {
        assert_eq!(told(answer), (14, 0, end));
    }
    assert_eq!(told(quick.string_count(0)), (14, 0, end));
}

/// 33 comes before 32, and each leaves the rows as they were; the data is read of a sound
/// question alone.
#[test]
fn samples_have_their_own_refusals() {
    let (longs, singles) = (
        &[1, 0, 0, 0, 2, 0, 0, 0],
        &[0, 0, 0x80, 0x3F, 0, 0, 0x80, 0x7F],
    );
    let of = |code, data| PlainTrace {
        strings: &[],
        code,
        count: 2,
        data,
    };
    let bytes = plain_file(reference::Order::Low, &[], &[of(2, longs), of(4, singles)]);
    let quick = Quick::new(&bytes);
    assert_eq!(quick.integers(0), Ok(vec![1, 2]));
    assert_eq!(told(quick.integers(1)), (33, -1, 0));
    assert_eq!(told(quick.bits(0)), (33, -1, 0));
    let bits = Bits {
        patterns: vec![0x3F80_0000, 0x7F80_0000],
        classes: vec![2, 3],
    };
    assert_eq!(quick.bits(1), Ok(bits));
    assert_eq!(quick.doubles(0), Ok(vec![1.0, 2.0]));
    assert_eq!(quick.doubles(1), Ok(vec![1.0, f64::INFINITY]));
    let mut row = [7; 3];
    for (trace, number) in [(0, 32), (1, 33)] {
        assert_eq!(told(quick.integers_into(trace, &mut row)), (number, -1, 0));
        assert_eq!(row, [7; 3]);
    }
    let (mut row, mut classes) = ([7; 3], [7; 3]);
    for (trace, patterns, kinds, number) in [(1, 3, 2, 32), (1, 2, 3, 32), (0, 3, 3, 33)] {
        let answer = quick.bits_into(trace, &mut row[..patterns], &mut classes[..kinds]);
        assert_eq!(told(answer), (number, -1, 0));
        assert_eq!((row, classes), ([7; 3], [7; 3]));
    }
}

/// What every question on trace 1 is refused by.
fn every_question_is_refused(bytes: &[u8], trace: usize, refused: Told) {
    let quick = Quick::new(bytes);
    assert_eq!(told(quick.block(trace)), refused);
    assert_eq!(told(quick.integers(trace)), refused);
    assert_eq!(told(quick.integers_into(trace, &mut [])), refused);
    assert_eq!(told(quick.bits(trace)), refused);
    assert_eq!(told(quick.bits_into(trace, &mut [], &mut [])), refused);
    assert_eq!(told(quick.doubles(trace)), refused);
    every_string_question_is_refused(bytes, trace, refused);
}

fn every_string_question_is_refused(bytes: &[u8], trace: usize, refused: Told) {
    let quick = Quick::new(bytes);
    assert_eq!(told(quick.string_count(trace)), refused);
    assert_eq!(told(quick.string(trace, 1)), refused);
    assert_eq!(told(quick.strings(trace)), refused);
    assert_eq!(told(quick.has(trace, b"STACK")), refused);
    assert_eq!(told(quick.value(trace, b"STACK")), refused);
    assert_eq!(told(quick.note(trace)), refused);
    assert_eq!(told(quick.number(trace, b"STACK")), refused);
    assert_eq!(told(quick.double(trace, b"STACK")), refused);
    assert_eq!(told(quick.location(trace, b"STACK")), refused);
}

#[test]
fn refusals_have_part_and_place() {
    let strings: &[&[u8]] = &[b"DELAY 0", b"STACK 4"];
    let bytes = file_of(&[strings; 2]);
    let p = start(&bytes, 1);
    let (delay, stack) = (p + 32, last(&bytes, b"STACK") - 2);
    let long = &(bytes.len() as u32).to_le_bytes();
    let cases: &[(usize, &[u8], Told)] = &[
        (0, &[0x54], (2, -1, 0)),
        (2, &[2], (3, -1, 2)),
        (4, &[6], (4, -1, 4)),
        (6, &[0], (5, -1, 6)),
        (6, &[3], (5, -1, 6)),
        (8, &[3], (6, -1, 8)),
        (12, &[0], (6, -1, 11)),
        (4, &[0xFC, 0xFF], (7, -1, 4)),
        (6, &[1], (18, -1, 0)),
        (36, &[p as u8 + 2], (8, 1, 36)),
        (36, &[36, 0, 0, 0], (8, 1, 36)),
        (36, long, (8, 1, 36)),
        (p, &[0x44, 0x22], (9, 1, p)),
        (p + 2, &[28], (10, 1, p + 2)),
        (p + 4, &[4], (11, 1, p + 4)),
        (p + 12, &[6], (12, 1, p + 12)),
        (p + 8, &[1], (13, 1, p + 8)),
        (delay, &[3], (14, 1, delay)),
        (delay + 9, b"X", (15, 1, delay)),
        (delay + 2, b"d", (16, 1, delay)),
        (stack + 2, b"A", (17, 1, stack)),
    ];
    for (at, new, refused) in cases {
        let broken = changed(&bytes, *at, new);
        if (14..=17).contains(&refused.0) {
            every_string_question_is_refused(&broken, 1, *refused);
            let quick = Quick::new(&broken);
            assert_eq!(quick.block(1), Quick::new(&bytes).block(1), "byte {at}");
            assert_eq!(quick.integers(1), Ok(vec![]), "byte {at}");
        } else {
            every_question_is_refused(&broken, 1, *refused);
        }
    }
    // of a value, behind the strings up to it
    let quick = Quick::new(&bytes);
    assert_eq!(told(quick.number(1, b"MISSING")), (20, -1, 0));
    assert_eq!(told(quick.double(1, b"MISSING")), (20, -1, 0));
    assert_eq!(told(quick.location(1, b"MISSING")), (23, -1, 0));
    let typed = changed(&bytes, last(&bytes, b"STACK 4") + 6, b"x");
    let quick = Quick::new(&typed);
    assert_eq!(told(quick.number(1, b"STACK")), (20, -1, 0));
    assert_eq!(told(quick.location(1, b"STACK")), (20, -1, 0));
    let bytes = changed(&bytes, delay + 2, b"d");
    let refusal = Quick::new(&bytes).value(1, b"STACK").expect_err("16");
    let said = format!("refused (16) in trace 1 at byte {delay}: a forbidden character in a keyword or value, or an empty keyword");
    assert_eq!(refusal.to_string(), said);
}

/// "with 18 between 7 and 8": no pointer is read where there is no such trace.
#[test]
fn no_such_trace_is_18_for_every_number() {
    let bytes = changed(&file_of(&[&[b"STACK 4"]]), 32, &[1, 1, 1, 1]);
    let quick = Quick::new(&bytes);
    assert_eq!(told(quick.value(0, b"STACK")), (8, 0, 32));
    for trace in [
        1,
        2,
        65_535,
        65_536,
        1 << 31,
        (1 << 32) - 1,
        1 << 32,
        usize::MAX,
    ] {
        every_question_is_refused(&bytes, trace, (18, -1, 0));
    }
    // the file's own strings are not asked here, whatever number the call is given
    for trace in [-1, -2, i32::MIN, 1, i32::MAX] {
        let answer = calls::quick_value(&bytes, bytes.len(), trace, b"UNITS");
        assert_eq!(told(answer.told()), (18, -1, 0));
        assert_eq!((answer.value_start, answer.value_length), (0, 0));
        let answer = calls::quick_keyword(&bytes, bytes.len(), trace, b"UNITS");
        assert_eq!(told(answer.told()), (18, -1, 0));
        let answer = calls::quick_string_count(&bytes, bytes.len(), trace);
        assert_eq!((told(answer.told()), answer.count), ((18, -1, 0), 0));
        let answer = calls::quick_strings(&bytes, bytes.len(), trace, &mut []);
        assert_eq!(told(answer.told()), (18, -1, 0));
    }
}

#[test]
fn a_prefix_is_the_file_and_no_more() {
    let bytes = file_of(&[&[b"STACK 4"]]);
    let p = start(&bytes, 0);
    let longer = [&bytes[..], &[0xEE; 50]].concat();
    let value = |length| Quick::prefix(&longer, length).value(0, b"STACK");
    assert_eq!(value(bytes.len()), Ok(Some(&b"4"[..])));
    assert_eq!(value(longer.len()), Ok(Some(&b"4"[..])));
    for (length, refused) in [
        (0, (1, -1, 0)),
        (31, (1, -1, 0)),
        (longer.len() + 1, (1, -1, 0)),
        (usize::MAX, (1, -1, 0)),
        (35, (7, -1, 4)),
        (p + 31, (8, 0, 32)),
        (bytes.len() - 1, (10, 0, p + 2)),
    ] {
        assert_eq!(told(value(length)), refused, "{length} bytes");
    }
    assert_eq!(told(Quick::new(&[]).has(0, b"")), (1, -1, 0));
    let long = vec![0; seg2::MAXIMUM_LENGTH + 1];
    assert_eq!(told(Quick::new(&long).has(0, b"")), (1, -1, 0));
}

/// What the reference answers to every question but those on a keyword.
fn as_the_reference(buffer: &[u8], length: usize, trace: usize) {
    let quick = Quick::prefix(buffer, length);
    let k = trace as i64;
    let block = reference::quick_trace_block(buffer, length, k);
    let block = block.as_ref().map(own::block).map_err(|&r| ours(r));
    assert_eq!(quick.block(trace), block);
    let count = reference::quick_string_count(buffer, length, k);
    assert_eq!(quick.string_count(trace), count.map_err(ours));
    let mut strings = Vec::new();
    for i in 0..=count.unwrap_or(0) {
        let string = reference::quick_string(buffer, length, k, i);
        let string = string.map(|found| found.map(|s| own::pair(buffer, &s)));
        let string = string.map_err(ours);
        assert_eq!(quick.string(trace, i), string);
        strings.extend(string.ok().flatten());
    }
    let listed = quick.strings(trace).map(Vec::from_iter);
    assert_eq!(listed, count.map(|_| strings).map_err(ours));
    let samples = block.map_or(0, |block| block.sample_count);
    let mut row = vec![0; samples];
    let answer = reference::quick_integers(buffer, length, k, &mut row);
    assert_eq!(quick.integers(trace), answer.map(|()| row).map_err(ours));
    let (mut patterns, mut classes) = (vec![0; samples], vec![0; samples]);
    let answer = reference::quick_bits(buffer, length, k, &mut patterns, &mut classes);
    let bits = answer.map(|()| Bits { patterns, classes }).map_err(ours);
    assert_eq!(quick.bits(trace), bits);
}

/// The same of the value of a keyword as a number of some kind.
fn numbers_as_the_reference(buffer: &[u8], length: usize, trace: usize, key: &[u8]) {
    let (quick, k) = (Quick::prefix(buffer, length), trace as i64);
    let number = reference::quick_number(buffer, length, k, key);
    let number = number.map(own::number).map_err(ours);
    assert_eq!(quick.number(trace, key), number);
    let double = reference::quick_double(buffer, length, k, key);
    assert_eq!(quick.double(trace, key), double.map_err(ours));
    let location = reference::quick_location(buffer, length, k, key);
    let location = location.map(own::location).map_err(ours);
    assert_eq!(quick.location(trace, key), location);
}

/// No bytes are too strange to be answered: as the reference answers.
#[test]
fn any_bytes_are_answered() {
    let mut rng = Rng::new(222);
    let (mut values, mut refused) = (0, 0);
    for _ in 0..10_000 {
        let (buffer, length) = mutated(&mut rng);
        let quick = Quick::prefix(&buffer, length);
        for trace in 0..3 {
            as_the_reference(&buffer, length, trace);
            for key in [&b"NOTE"[..], b"STACK", b"DELAY"] {
                numbers_as_the_reference(&buffer, length, trace, key);
                let value = quick.value(trace, key);
                assert_eq!(quick.has(trace, key), value.map(|v| v.is_some()));
                let expected = reference::quick_keyword(&buffer, length, trace as i64, key);
                let place = reference::quick_value(&buffer, length, trace as i64, key);
                let expected = expected.map(|found| found.then(|| &buffer[place]));
                assert_eq!(value, expected.map_err(ours));
                values += usize::from(matches!(value, Ok(Some(_))));
                refused += usize::from(value.is_err());
            }
            let note = quick.value(trace, b"NOTE");
            let lines = quick.note(trace).map(|lines| lines.count() > 0);
            assert_eq!(lines, note.map(|value| value.is_some()));
        }
    }
    assert!(values > 100 && refused > 1000, "{values} {refused}");
}
