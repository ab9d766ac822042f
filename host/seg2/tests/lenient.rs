//! Older recorders (document 02, §11), by the wrapper: files made by hand, one habit at a
//! time, and what is not forgiven; then every lenient call beside the full one where the check
//! accepts the file, and beside the independent reader where it does not.

mod own;

use own::{block as own_block, location, number as own_number, pair, refusal as ours};
use seg2::{calls, check, check_lenient, code, Builder, File, LenientRefusal, Order, Refusal};
use seg2_reference as reference;
use seg2_reference::generate::{
    mutated, mutated_old, old_case, plain_file, Model, PlainTrace, Rng,
};

type Told = (u32, i32, usize);

fn told(refusal: Refusal) -> Told {
    (refusal.number, refusal.part, refusal.place)
}

/// What the strict check says of a whole slice.
fn strictly(bytes: &[u8]) -> Option<Refusal> {
    check(bytes, bytes.len()).err()
}

/// A file that is read leniently alone, and the strict row that is forgiven.
fn old(bytes: &[u8]) -> (File<'_>, Told) {
    let file = File::open_lenient(bytes).expect("an old file");
    let strict = file.strict().expect("a strict refusal");
    assert_eq!(Some(strict), strictly(bytes));
    assert_eq!(check_lenient(bytes, bytes.len()), Ok(Some(strict)));
    (file, told(strict))
}

/// Both rows of a file that is not even read leniently.
fn refused(bytes: &[u8]) -> (Told, Told) {
    let both = File::open_lenient(bytes).expect_err("a refusal");
    assert_eq!(check_lenient(bytes, bytes.len()), Err(both));
    assert_eq!(Some(both.strict), strictly(bytes));
    (told(both.refusal), told(both.strict))
}

// ---- files by hand

/// A string: its offset, its text and the terminator 0.
fn string(text: &[u8]) -> Vec<u8> {
    let offset = text.len() as u16 + 3;
    [&offset.to_le_bytes()[..], text, &[0]].concat()
}

/// Strings one behind the other, without an end mark.
fn list(texts: &[&[u8]]) -> Vec<u8> {
    texts.iter().flat_map(|text| string(text)).collect()
}

/// The same with an end mark, and zeros to a multiple of 4.
fn marked(texts: &[&[u8]]) -> Vec<u8> {
    let mut area = list(texts);
    area.extend([0, 0]);
    area.resize(area.len().next_multiple_of(4), 0);
    area
}

/// Low byte first, with these areas of strings; each trace has the samples 1, -1, 256 of code 1.
fn file_of(own: &[u8], traces: &[&[u8]]) -> Vec<u8> {
    let count = traces.len() as u16;
    let mut head = [0x55, 0x3A, 1, 0].to_vec();
    head.extend([4 * count, count].map(u16::to_le_bytes).concat());
    head.extend([1, 0, 0, 1, b'\n', 0]);
    head.resize(32, 0);
    let mut at = 32 + 4 * traces.len() + own.len();
    let mut blocks = Vec::new();
    for area in traces {
        head.extend((at as u32).to_le_bytes());
        let mut block = [0x22, 0x44].to_vec();
        block.extend((32 + area.len() as u16).to_le_bytes());
        block.extend([8, 3].map(u32::to_le_bytes).concat());
        block.push(code::FIXED_16 as u8);
        block.resize(32, 0);
        block.extend(*area);
        block.extend([1, 0, 0xFF, 0xFF, 0, 1, 0, 0]);
        at += block.len();
        blocks.extend(block);
    }
    [&head, own, &blocks].concat()
}

/// The same bytes with others put in at a place.
fn changed(bytes: &[u8], at: usize, new: &[u8]) -> Vec<u8> {
    let mut bytes = bytes.to_vec();
    bytes[at..at + new.len()].copy_from_slice(new);
    bytes
}

/// A file with one trace: its own strings start at 36.
const OWN: usize = 36;

#[test]
fn the_files_by_hand_are_files() {
    let bytes = file_of(&marked(&[b"UNITS METERS"]), &[&marked(&[b"STACK 1"])]);
    assert_eq!(bytes, reference::worked::example());
    assert_eq!(check_lenient(&bytes, bytes.len()), Ok(None));
}

// ---- the four habits

#[test]
fn lower_case_keywords_count_as_capitals() {
    let area = marked(&[
        b"Delay -0.020",
        b"receiver_location 1 2.5 -3.00",
        b"sTACK 4",
    ]);
    let bytes = file_of(&marked(&[b"units METERS"]), &[&area]);
    let (file, strict) = old(&bytes);
    assert_eq!(strict, (16, -1, OWN));
    assert!(file.has(b"UNITS") && !file.has(b"units") && !file.has(b"Units"));
    assert_eq!(file.value(b"UNITS"), Some(&b"METERS"[..]));
    // a keyword is shown as it stands, and is the buffer's own bytes
    let (keyword, value) = file.string(0).expect("a string");
    assert_eq!((keyword, value), (&b"units"[..], &b"METERS"[..]));
    assert_eq!(keyword.as_ptr(), bytes[OWN + 2..].as_ptr());
    let trace = file.trace(0).expect("a trace");
    assert_eq!(trace.value(b"STACK"), Some(&b"4"[..]));
    assert_eq!(trace.number(b"DELAY").expect("a number").decimals, 3);
    assert_eq!(trace.double(b"DELAY"), Ok(-0.02));
    let at = trace.location(b"RECEIVER_LOCATION").expect("a location");
    assert_eq!(
        (at.count, at.x, at.y, at.z, at.z_decimals),
        (3, 1.0, 2.5, -3.0, 2)
    );
    // what is asked for is taken as it is given
    for key in [&b"sTACK"[..], b"stack", b"Delay", b"STACK ", b"", b"\xE9"] {
        assert!(!trace.has(key));
        assert_eq!(trace.value(key), None);
        assert_eq!(trace.number(key).expect_err("20").number, 20);
        assert_eq!(trace.location(key).expect_err("23").number, 23);
    }
}

#[test]
fn a_note_in_any_letters_has_lines() {
    for word in ["note", "Note", "nOTe", "NOTE"] {
        let text = format!("{word} WET\n\n COLD");
        let area = marked(&[text.as_bytes(), b"STACK 4"]);
        let bytes = file_of(&area, &[&area]);
        let (file, strict) = old(&bytes);
        let number = if word == "NOTE" { 17 } else { 16 };
        let place = OWN + if word == "NOTE" { text.len() + 3 } else { 0 };
        assert_eq!(strict, (number, -1, place));
        let lines = [&b"WET"[..], b"", b" COLD"];
        assert_eq!(file.note().collect::<Vec<_>>(), lines);
        let trace = file.trace(0).expect("a trace");
        assert_eq!(trace.note().collect::<Vec<_>>(), lines);
        assert_eq!(file.lines(trace.value(b"NOTE").expect("a NOTE")).count(), 3);
    }
    // no other keyword has
    for word in ["notes", "not", "anote", "NOTES", "STACK"] {
        let area = marked(&[format!("{word} WET\nCOLD").as_bytes()]);
        let bytes = file_of(&area, &[&area]);
        assert_eq!(refused(&bytes), ((16, -1, OWN), (16, -1, OWN)), "{word}");
    }
}

#[test]
fn any_order_and_repeats_are_taken() {
    let area = marked(&[b"B 1", b"NOTE x", b"A 2", b"b 3", b"NOTE y", b"A 4"]);
    let bytes = file_of(&[], &[&marked(&[b"STACK 1"]), &area]);
    let (file, strict) = old(&bytes);
    let trace = file.trace(1).expect("a trace");
    assert_eq!(strict, (17, 1, trace.start() + 32 + 6 + 9));
    assert_eq!(trace.string_count(), 6);
    let pairs: Vec<_> = trace.strings().collect();
    let expected = ["B 1", "NOTE x", "A 2", "b 3", "NOTE y", "A 4"];
    for (i, ((keyword, value), text)) in pairs.iter().zip(expected).enumerate() {
        assert_eq!([*keyword, value].join(&b' '), text.as_bytes());
        assert_eq!(trace.string(i), Some((*keyword, *value)));
    }
    assert_eq!(trace.string(6), None);
    // of repeats the first answers
    for (key, first) in [(&b"A"[..], &b"2"[..]), (b"B", b"1"), (b"NOTE", b"x")] {
        assert_eq!(trace.value(key), Some(first));
    }
    assert_eq!(trace.double(b"A"), Ok(2.0));
    assert_eq!(trace.note().collect::<Vec<_>>(), [b"x"]);
}

#[test]
fn a_full_area_needs_no_end_mark() {
    // offset, text and terminator of each string: 16 bytes, and twice 8
    let (own, area) = (list(&[b"UNITS INCHES1"]), list(&[b"A 1\t2", b"B 1 2"]));
    assert_eq!((own.len(), area.len()), (16, 16));
    let bytes = file_of(&own, &[&area]);
    let (file, strict) = old(&bytes);
    assert_eq!(strict, (14, -1, OWN + 16));
    assert_eq!(file.value(b"UNITS"), Some(&b"INCHES1"[..]));
    assert_eq!(file.string_count(), 1);
    let trace = file.trace(0).expect("a trace");
    assert_eq!(trace.strings().len(), 2);
    assert_eq!(trace.value(b"B"), Some(&b"1 2"[..]));
    assert_eq!(trace.integers().expect("samples"), [1, -1, 256]);

    // in the trace alone
    let bytes = file_of(&marked(&[]), &[&area]);
    let (file, strict) = old(&bytes);
    let end = file.trace(0).expect("a trace").start() + 32 + 16;
    assert_eq!(strict, (14, 0, end));
}

#[test]
fn one_byte_behind_the_strings_is_no_end_mark() {
    // a string of 15 bytes, and one byte more
    let area = [list(&[b"UNITS INCHES"]), vec![0]].concat();
    assert_eq!(area.len(), 16);
    let bytes = file_of(&marked(&[]), &[&area]);
    let start = bytes.len() - 8 - 16;
    assert_eq!(refused(&bytes), ((14, 0, start + 15), (14, 0, start + 15)));
    // two are one, whatever follows them
    let area = [list(&[b"UNITS INCH"]), vec![0, 0, 0xEE]].concat();
    let bytes = file_of(&marked(&[]), &[&area]);
    assert_eq!(check_lenient(&bytes, bytes.len()), Ok(None));
    // and strings behind an end mark are no strings
    let area = [list(&[b"A 1"]), vec![0, 0], list(&[b"B 1 23"])].concat();
    let bytes = file_of(&[], &[&[&area[..], &[1, 2, 3]].concat()]);
    let file = File::open_lenient(&bytes).expect("a file");
    assert_eq!(file.trace(0).expect("a trace").string_count(), 1);
    assert_eq!(file.string_count(), 0);
}

#[test]
fn channel_numbers_are_not_looked_at() {
    let (none, one) = (marked(&[b"STACK 1"]), marked(&[b"CHANNEL_NUMBER 5"]));
    let bad = marked(&[b"CHANNEL_NUMBER none"]);
    for (traces, part) in [([&none, &one], 1), ([&one, &none], 1), ([&bad, &one], 0)] {
        let traces: Vec<&[u8]> = traces.iter().map(|area| &area[..]).collect();
        let bytes = file_of(&[], &traces);
        let (file, strict) = old(&bytes);
        let trace = file.trace(part).expect("a trace");
        assert_eq!(strict, (34, part as i32, trace.start() + 32));
        assert_eq!(trace.string_count(), 1);
    }
    let bytes = file_of(&[], &[&bad, &one]);
    let (file, _) = old(&bytes);
    let value = file.trace(0).expect("a trace").value(b"CHANNEL_NUMBER");
    assert_eq!(value, Some(&b"none"[..]));
}

// ---- what is not forgiven

/// Each is refused at the same place by both readings.
#[test]
fn nothing_else_is_forgiven() {
    let bytes = reference::worked::example();
    let cases: &[(usize, &[u8], Told)] = &[
        (0, &[0], (2, -1, 0)),
        (2, &[2], (3, -1, 2)),
        (4, &[6], (4, -1, 4)),
        (6, &[0], (5, -1, 6)),
        (8, &[3], (6, -1, 8)),
        (12, &[0], (6, -1, 11)),
        (4, &[252], (7, -1, 4)),
        (32, &[58], (8, 0, 32)),
        (56, &[0], (9, 0, 56)),
        (58, &[46], (10, 0, 58)),
        (60, &[6], (11, 0, 60)),
        (68, &[9], (12, 0, 68)),
        (64, &[5], (13, 0, 64)),
        (36, &[3], (14, -1, 36)),
        (88, &[200], (14, 0, 88)),
        (97, b"A", (15, 0, 88)),
        // characters: 32 and 127 border what a keyword may have, 96 and 123 the small letters
        (90, b" ", (16, 0, 88)),
        (91, &[127], (16, 0, 88)),
        (91, &[0x80], (16, 0, 88)),
        (91, &[31], (16, 0, 88)),
        (96, &[127], (16, 0, 88)),
        (96, b"\n", (16, 0, 88)),
        (44, &[0xE9], (16, -1, 36)),
    ];
    for (at, new, row) in cases {
        let bytes = changed(&bytes, *at, new);
        assert_eq!(refused(&bytes), (*row, *row), "byte {at}");
    }
    assert_eq!(refused(&bytes[..31]), ((1, -1, 0), (1, -1, 0)));
    assert_eq!(refused(&bytes[..107]), ((11, 0, 60), (11, 0, 60)));
    // beside them the first and the last small letter are, and what borders them is allowed
    for letter in [b'a', b'z'] {
        assert_eq!(old(&changed(&bytes, 91, &[letter])).1, (16, 0, 88));
    }
    for sign in [b'`', b'{'] {
        assert_eq!(strictly(&changed(&bytes, 91, &[sign])), None);
    }
}

#[test]
fn the_strict_check_may_stop_earlier() {
    // the file's keyword is in small letters, and the trace is no trace
    let bytes = changed(&reference::worked::example(), 38, b"u");
    let bytes = changed(&bytes, 56, &[0]);
    assert_eq!(refused(&bytes), ((9, 0, 56), (16, -1, 36)));
    let words = File::open_lenient(&bytes)
        .expect_err("a refusal")
        .to_string();
    assert_eq!(
        words,
        "refused (9) in trace 0 at byte 56: no trace block where the pointer leads; \
         the strict check stops earlier: refused (16) in the file at byte 36: \
         a forbidden character in a keyword or value, or an empty keyword"
    );
    // in one string: small letters and a character that no reading takes
    let bytes = changed(&reference::worked::example(), 90, b"s");
    let bytes = changed(&bytes, 96, &[0xE9]);
    assert_eq!(refused(&bytes), ((16, 0, 88), (16, 0, 88)));
    let both = File::open_lenient(&bytes).expect_err("a refusal");
    assert_eq!(both.to_string(), both.refusal.to_string());
    let error: Box<dyn std::error::Error> = both.into();
    assert!(error
        .to_string()
        .starts_with("refused (16) in trace 0 at byte 88"));
}

// ---- the file and its traces

#[test]
fn a_prefix_is_the_file_and_no_more() {
    let bytes = changed(&reference::worked::example(), 38, b"u");
    let length = bytes.len();
    let mut buffer = bytes.clone();
    buffer.resize(length + 50, 0xEE);
    let file = File::open_lenient_prefix(&buffer, length).expect("an old file");
    assert_eq!(file.bytes(), bytes);
    assert_eq!(file.strict().map(told), Some((16, -1, 36)));
    assert_eq!(
        file.trace(0).expect("a trace").value(b"STACK"),
        Some(&b"1"[..])
    );
    for length in [length + 51, usize::MAX, 0] {
        let both = File::open_lenient_prefix(&buffer, length).expect_err("1");
        assert_eq!(
            (told(both.refusal), both.strict),
            ((1, -1, 0), both.refusal)
        );
        assert_eq!(check_lenient(&buffer, length), Err(both));
    }
}

/// An old file with a trace of each code: the samples of its traces, and their refusals.
#[test]
fn samples_are_read_as_ever() {
    let data: &[&[u8]] = &[
        &[1, 0, 0xFF, 0xFF, 0, 1, 0, 0],
        &[7, 0, 0, 0, 0xF9, 0xFF, 0xFF, 0xFF],
        &[0x10, 0xF2, 1, 0, 0xFE, 0xFF, 5, 0, 0xFF, 0x7F, 0, 0],
        &[0, 0, 0x80, 0x3F, 0, 0, 0x80, 0x7F],
        &[0, 0, 0, 0, 0, 0, 0, 0x80],
    ];
    let strings: &[&[u8]] = &[b"stack 1", b"DELAY 0"];
    let counts = [3, 2, 4, 2, 1];
    let traces: Vec<PlainTrace> = (0..5)
        .map(|k| PlainTrace {
            strings,
            code: k as u8 + 1,
            count: counts[k],
            data: data[k],
        })
        .collect();
    let bytes = plain_file(reference::Order::Low, &[], &traces);
    let (file, _) = old(&bytes);
    let traces: Vec<_> = file.traces().collect();
    assert_eq!(traces.len(), 5);
    let integers = [&[1, -1, 256][..], &[7, -7], &[1, -2, 20, 1_073_709_056]];
    for (trace, row) in traces.iter().zip(integers) {
        assert_eq!(trace.integers().as_deref(), Ok(row));
        let doubles: Vec<f64> = row.iter().copied().map(f64::from).collect();
        assert_eq!(trace.doubles(), Ok(doubles));
        assert_eq!(trace.bits().expect_err("33").number, 33);
        let mut long = vec![7; row.len() + 1];
        assert_eq!(trace.integers_into(&mut long).expect_err("32").number, 32);
        assert_eq!(long, vec![7; row.len() + 1]);
    }
    let bits = traces[3].bits().expect("patterns");
    assert_eq!(bits.patterns, [0x3F80_0000, 0x7F80_0000]);
    assert_eq!(bits.classes, [2, 3]);
    assert_eq!(traces[3].doubles(), Ok(vec![1.0, f64::INFINITY]));
    assert_eq!(traces[4].bits().expect("patterns").patterns, [1 << 63]);
    assert_eq!(traces[4].integers().expect_err("33").number, 33);
    let (mut row, mut classes) = ([7; 2], [7; 1]);
    let refusal = traces[4].bits_into(&mut row, &mut classes);
    assert_eq!(told(refusal.expect_err("32")), (32, -1, 0));
    assert_eq!((row, classes), ([7; 2], [7; 1]));
    assert_eq!(traces[0].file().strict(), file.strict());
    for index in [5, 1 << 31, usize::MAX] {
        assert_eq!(told(file.trace(index).expect_err("18")), (18, -1, 0));
    }
}

/// It is the view that `open` gives, and a trace can be added.
#[test]
fn a_file_that_keeps_the_rules_is_the_strict_one() {
    let mut shot =
        Builder::start(Order::High, 2, b"UNITS\tMETERS\nNOTE\ta\nNOTE\tb\n").expect("a start");
    shot.add_integers(b"STACK\t4\n", 1, &[1, 2])
        .expect("a trace");
    let bytes = shot.finish();
    let (file, strict) = (
        File::open_lenient(&bytes).expect("a file"),
        File::open(&bytes).expect("a file"),
    );
    assert_eq!((file.strict(), strict.strict()), (None, None));
    assert_eq!(
        file.note().collect::<Vec<_>>(),
        strict.note().collect::<Vec<_>>()
    );
    assert_eq!(format!("{file:?}"), format!("{strict:?}"));
    assert!(Builder::resume(bytes).add_integers(b"", 1, &[]).is_ok());
}

/// Adding needs the strict check, whatever it is that is forgiven.
#[test]
fn no_trace_is_added_to_an_old_file() {
    let sound = marked(&[b"STACK 1"]);
    let files = [
        file_of(&marked(&[b"units METERS"]), &[&sound]),
        file_of(&marked(&[b"B 1", b"A 1"]), &[&sound]),
        file_of(&[], &[&list(&[b"UNITS INCHES1"])]),
        file_of(&[], &[&sound, &marked(&[b"CHANNEL_NUMBER 5"])]),
    ];
    for bytes in files {
        let (_, strict) = old(&bytes);
        let mut buffer = bytes.clone();
        buffer.resize(bytes.len() + 500, 0xEE);
        let before = buffer.clone();
        let refusal = seg2::add_integers(&mut buffer, bytes.len(), b"", 1, &[1]);
        assert_eq!(told(refusal.expect_err("a refusal")), strict);
        let refusal = seg2::add_bits(&mut buffer, bytes.len(), b"", 4, &[1]);
        assert_eq!(told(refusal.expect_err("a refusal")), strict);
        assert_eq!(buffer, before);
    }
}

// ---- each call beside the full one, the strict verdict beside each

/// The keywords of a part in all their letters, what is near them, and what is none.
fn keys(buffer: &[u8], length: usize, part: i32) -> Vec<Vec<u8>> {
    let mut keys: Vec<Vec<u8>> = [
        "",
        "NOTE",
        "note",
        "NOT",
        "STACK",
        "CHANNEL_NUMBER",
        "\u{e9}",
    ]
    .map(|key| key.as_bytes().to_vec())
    .into();
    for index in 0..3 {
        let string = calls::lenient_string(buffer, length, part, index).answer;
        if string.found == 1 {
            let keyword = &buffer[string.key_start..string.key_start + string.key_length];
            keys.push(keyword.to_vec());
            keys.push(keyword.to_ascii_uppercase());
            keys.push(keyword.to_ascii_lowercase());
            keys.push([&keyword.to_ascii_uppercase()[..], b"!"].concat());
        }
    }
    keys
}

/// All lenient answers on a part, whatever the bytes are: those of the full calls where the
/// check accepts the file, and the strict verdict beside each of them. The rows are of the right
/// length and of others.
fn ask_all(buffer: &[u8], length: usize, part: i32) {
    let (b, n, k) = (buffer, length, part);
    let strict = calls::check(b, n);
    let accepted = strict.number == 0;
    macro_rules! beside {
        ($lenient:expr, $full:expr) => {{
            let lenient = $lenient;
            assert_eq!(lenient.strict, strict);
            assert!(!accepted || lenient.answer == $full, "{:?}", lenient.answer);
            lenient.answer
        }};
    }
    beside!(calls::lenient_check(b, n), strict);
    beside!(calls::lenient_file_block(b, n), calls::file_block(b, n));
    let block = beside!(
        calls::lenient_trace_block(b, n, k),
        calls::trace_block(b, n, k)
    );
    let count = beside!(
        calls::lenient_string_count(b, n, k),
        calls::string_count(b, n, k)
    )
    .count;
    for index in [0, 1, count.wrapping_sub(1), count, usize::MAX] {
        let string = calls::string(b, n, k, index);
        beside!(calls::lenient_string(b, n, k, index), string);
    }
    for key in &keys(b, n, k) {
        beside!(
            calls::lenient_keyword(b, n, k, key),
            calls::keyword(b, n, k, key)
        );
        beside!(
            calls::lenient_value(b, n, k, key),
            calls::value(b, n, k, key)
        );
        beside!(
            calls::lenient_number(b, n, k, key),
            calls::number(b, n, k, key)
        );
        beside!(
            calls::lenient_double(b, n, k, key),
            calls::double(b, n, k, key)
        );
        beside!(
            calls::lenient_location(b, n, k, key),
            calls::location(b, n, k, key)
        );
    }
    for size in [4 * count, 4 * count + 1] {
        let (mut row, mut full) = (vec![7; size], vec![7; size]);
        let expected = calls::strings(b, n, k, &mut full);
        let answer = beside!(calls::lenient_strings(b, n, k, &mut row), expected);
        assert!(!accepted || row == full);
        assert!(answer.number == 0 || row == vec![7; size]);
    }
    for size in [block.sample_count, block.sample_count + 1] {
        let (mut row, mut full) = (vec![7; size], vec![7; size]);
        let expected = calls::integers(b, n, k, &mut full);
        let answer = beside!(calls::lenient_integers(b, n, k, &mut row), expected);
        assert!(!accepted || row == full);
        assert!(answer.number == 0 || row == vec![7; size]);
        let (mut row, mut classes) = (vec![7; size], vec![7; block.sample_count]);
        let (mut full, mut full_classes) = (row.clone(), classes.clone());
        let expected = calls::bits(b, n, k, &mut full, &mut full_classes);
        let answer = calls::lenient_bits(b, n, k, &mut row, &mut classes);
        let answer = beside!(answer, expected);
        assert!(!accepted || (&row, &classes) == (&full, &full_classes));
        let untouched = row.iter().all(|&p| p == 7) && classes.iter().all(|&c| c == 7);
        assert!(answer.number == 0 || untouched);
    }
}

#[test]
fn on_an_accepted_file_each_call_answers_as_the_full_one() {
    let mut rng = Rng::new(231);
    for _ in 0..400 {
        let laid = Model::random(&mut rng).lay();
        assert_eq!(check(&laid.buffer, laid.length), Ok(()));
        let file = File::open_lenient_prefix(&laid.buffer, laid.length);
        assert_eq!(file.expect("a file").strict(), None);
        for part in -2..=i32::from(laid.file.n) {
            ask_all(&laid.buffer, laid.length, part);
        }
        ask_all(&laid.buffer, laid.length, i32::MAX);
    }
}

#[test]
fn the_strict_verdict_stands_beside_every_answer() {
    let mut rng = Rng::new(232);
    let (mut old, mut refused) = (0, 0);
    for i in 0..1200 {
        let (buffer, length) = match i % 3 {
            0 => mutated(&mut rng),
            1 => mutated_old(&mut rng),
            _ => {
                let case = old_case(&mut rng);
                (case.buffer, case.length)
            }
        };
        for part in [-2, -1, 0, 1, 2] {
            ask_all(&buffer, length, part);
        }
        match check_lenient(&buffer, length) {
            Ok(Some(strict)) => {
                assert!(matches!(strict.number, 14 | 16 | 17 | 34), "{strict}");
                old += 1;
            }
            Ok(None) => {}
            Err(both) => {
                judged(both);
                refused += 1;
            }
        }
    }
    assert!(old > 200 && refused > 200, "{old} {refused}");
}

/// "If the lenient reading refuses, the strict one refuses too: by the same row, or by a
/// forgiven one that it meets earlier."
fn judged(LenientRefusal { refusal, strict }: LenientRefusal) {
    assert!(!matches!(refusal.number, 17 | 34), "{refusal}");
    let forgiven = matches!(strict.number, 14 | 16 | 17 | 34);
    assert!(refusal == strict || forgiven, "{refusal}; {strict}");
}

// ---- beside the independent reader

fn ours_of<T>(lenient: &reference::Lenient<T>) -> Option<Refusal> {
    lenient.strict.map(ours)
}

/// Opened files and their traces, by the wrapper and by the reference.
#[test]
fn an_old_file_is_read_as_the_reference_reads_it() {
    let mut rng = Rng::new(233);
    let mut read = 0;
    for _ in 0..1500 {
        let case = old_case(&mut rng);
        let (b, n) = (&case.buffer[..], case.length);
        let expected = reference::lenient_check(b, n);
        let file = match File::open_lenient_prefix(b, n) {
            Err(both) => {
                assert_eq!(
                    expected.answer.as_ref().err().map(|&r| ours(r)),
                    Some(both.refusal)
                );
                assert_eq!(ours_of(&expected), Some(both.strict));
                continue;
            }
            Ok(file) => file,
        };
        assert_eq!(file.strict(), ours_of(&expected));
        let expected = expected.answer.expect("a file");
        assert_eq!(file.trace_count(), expected.traces.len());
        let pairs = |strings: &[reference::StringPlace]| {
            strings.iter().map(|s| pair(b, s)).collect::<Vec<_>>()
        };
        assert_eq!(file.strings().collect::<Vec<_>>(), pairs(&expected.strings));
        for (trace, block) in file.traces().zip(&expected.traces) {
            assert_eq!(trace.block(), own_block(block));
            assert_eq!(trace.strings().collect::<Vec<_>>(), pairs(&block.strings));
            let part = trace.index() as i64;
            for key in keys(b, n, trace.index() as i32) {
                let value = reference::lenient_keyword_string(b, n, part, &key).answer;
                let value = value.expect("an answer").map(|s| &b[s.value]);
                assert_eq!(trace.value(&key), value);
                assert_eq!(trace.has(&key), value.is_some());
                let number = reference::lenient_number(b, n, part, &key).answer;
                assert_eq!(trace.number(&key), number.map(own_number).map_err(ours));
                let at = reference::lenient_location(b, n, part, &key).answer;
                assert_eq!(trace.location(&key), at.map(location).map_err(ours));
            }
            let lines = reference::lenient_value(b, n, part, b"NOTE").answer;
            let lines = lines.expect("an answer");
            let expected = match trace.has(b"NOTE") {
                true => reference::note_lines(&expected, &b[lines]),
                false => Vec::new(),
            };
            assert_eq!(trace.note().collect::<Vec<_>>(), expected);
        }
        read += 1;
    }
    assert!(read > 500, "{read}");
}
