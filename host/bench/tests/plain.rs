//! The plain side gives the reference's answers, and where one trace is asked for quickly, or
//! a file leniently, the archive's: a benchmark against something that does less would say
//! nothing.

use seg2::{calls, raw};
use seg2_bench::files::{file, older_file};
use seg2_bench::{plain, plain_file, plain_lenient, plain_number, plain_quick};
use seg2_reference as reference;
use seg2_reference::generate::writing::{some_integers, some_patterns};
use seg2_reference::generate::{
    addition_case, damaged, location_case, mutated, mutated_old, number_case, old_case, plain_file,
    sample_case, several_damages, Model, PlainTrace, Rng, SampleQuestion, WAYS,
};
use seg2_reference::samples::{encode_bits, encode_integers};
use seg2_reference::worked::{CHANNEL_NUMBERS, NO_CHANNEL_NUMBERS};
use seg2_reference::{Order, Refusal, Row};
use std::collections::BTreeSet;

fn told(refusal: Refusal) -> plain_file::Refused {
    let Refusal {
        number,
        part,
        place,
    } = refusal;
    (number.into(), part as i32, place as usize)
}

fn checks_alike(buffer: &[u8], length: usize) {
    for grow in [false, true] {
        let expected = match grow {
            true => reference::check_for_addition(buffer, length),
            false => reference::check(buffer, length),
        };
        let answer = plain_file::check(buffer, length, grow);
        assert_eq!(answer.map(|_| ()), expected.map(|_| ()).map_err(told));
    }
}

#[test]
fn checks() {
    let mut rng = Rng::new(801);
    for way in WAYS {
        for _ in 0..30 {
            let case = damaged(&mut rng, way);
            checks_alike(&case.buffer, case.length);
        }
    }
    for _ in 0..5_000 {
        let laid = Model::random(&mut rng).lay();
        checks_alike(&laid.buffer, laid.length);
        let laid = Model::image(&mut rng).lay();
        checks_alike(&laid.buffer, laid.length);
        let case = several_damages(&mut rng);
        checks_alike(&case.buffer, case.length);
        for _ in 0..4 {
            let (buffer, length) = mutated(&mut rng);
            checks_alike(&buffer, length);
        }
    }
}

#[test]
fn values() {
    let mut rng = Rng::new(802);
    for _ in 0..4_000 {
        let laid = Model::random(&mut rng).lay();
        let n = i64::from(laid.file.n);
        for part in [-2, -1, 0, n - 1, n] {
            let mut keys = vec![b"".to_vec(), b"NOTE".to_vec(), b"A B".to_vec()];
            if (-1..n).contains(&part) {
                for string in laid.strings(part) {
                    keys.push(laid.buffer[string.keyword.clone()].to_vec());
                    keys.push(laid.buffer[string.keyword.start..string.value.end].to_vec());
                }
            }
            for key in keys {
                let value = reference::keyword_value(&laid.buffer, laid.length, part, &key);
                let found = reference::keyword(&laid.buffer, laid.length, part, &key);
                let expected = found.map(|_| (value.start, value.len())).map_err(told);
                let answer = plain_file::value(&laid.buffer, laid.length, part as i32, &key);
                assert_eq!(
                    answer,
                    expected,
                    "{part} {:?}",
                    key.escape_ascii().to_string()
                );
            }
        }
    }
}

/// The archive's answer, as the plain side gives it; its row is met.
macro_rules! expected {
    ($met:ident, $archive:expr, $told:expr) => {{
        let archive = $archive;
        $met.insert(archive.number);
        match archive.number {
            0 => Ok($told(archive)),
            number => Err((number, archive.part, archive.place)),
        }
    }};
}

/// Traces that a file has, and others.
const TRACES: [i32; 6] = [-1, 0, 1, 2, 5, i32::MAX];

/// Answers of the quick questions on a keyword, each beside the archive's; the rows met.
fn quick_alike(buffer: &[u8], length: usize, key: &[u8], met: &mut BTreeSet<u32>) {
    for trace in TRACES {
        let said = key.escape_ascii();
        let archive = calls::quick_value(buffer, length, trace, key);
        let place = |a: raw::Value| (a.value_start, a.value_length);
        let answer = plain_quick::value(buffer, length, trace, key);
        assert_eq!(answer, expected!(met, archive, place), "{trace} {said}");
        let archive = calls::quick_location(buffer, length, trace, key);
        let bits = |a: raw::Location| {
            let decimals = [a.x_decimals, a.y_decimals, a.z_decimals];
            (a.count, [a.x, a.y, a.z].map(f64::to_bits), decimals)
        };
        let answer = plain_quick::location(buffer, length, trace, key).map(by_bits);
        assert_eq!(answer, expected!(met, archive, bits), "{trace} {said}");
    }
}

/// A location whose doubles are compared by their bits, so that -0 is not 0.
fn by_bits((count, values, decimals): plain_number::Location) -> (u32, [u64; 3], [u32; 3]) {
    (count, values.map(f64::to_bits), decimals)
}

/// Answers of the other quick questions, rows included, of the right length and of others.
fn trace_alike(buffer: &[u8], length: usize, met: &mut BTreeSet<u32>) {
    for trace in TRACES {
        let archive = calls::quick_trace_block(buffer, length, trace);
        let block = expected!(met, archive, |a: raw::Trace| {
            let (b, d, s) = (a.block_size, a.data_size, a.sample_count);
            (a.start, b, d, s, a.format_code)
        });
        assert_eq!(plain_quick::block(buffer, length, trace), block);
        let archive = calls::quick_string_count(buffer, length, trace);
        let count = expected!(met, archive, |a: raw::Count| a.count);
        assert_eq!(plain_quick::string_count(buffer, length, trace), count);
        let nothing = |_: raw::Verdict| ();
        let (count, samples) = (count.unwrap_or(0), block.map_or(0, |block| block.3));
        for size in [4 * count, 4 * count + 1] {
            let (mut row, mut plainly) = (vec![7; size], vec![7; size]);
            let archive = calls::quick_strings(buffer, length, trace, &mut row);
            let answer = plain_quick::strings(buffer, length, trace, &mut plainly);
            assert_eq!(answer, expected!(met, archive, nothing));
            assert_eq!(plainly, row);
        }
        for size in [samples, samples + 1] {
            let (mut row, mut plainly) = (vec![7; size], vec![7; size]);
            let archive = calls::quick_integers(buffer, length, trace, &mut row);
            let answer = plain_quick::integers(buffer, length, trace, &mut plainly);
            assert_eq!(answer, expected!(met, archive, nothing));
            assert_eq!(plainly, row);
            let mut rows = (vec![7; size], vec![7; samples]);
            let mut plainly = rows.clone();
            let archive = calls::quick_bits(buffer, length, trace, &mut rows.0, &mut rows.1);
            let (row, classes) = (&mut plainly.0, &mut plainly.1);
            let answer = plain_quick::bits(buffer, length, trace, row, classes);
            assert_eq!(answer, expected!(met, archive, nothing));
            assert_eq!(plainly, rows);
        }
    }
}

/// Document 02, §5, on files that the check accepts and on others.
#[test]
fn quick_questions() {
    let mut rng = Rng::new(806);
    let mut met = BTreeSet::new();
    for way in WAYS {
        for _ in 0..30 {
            let case = damaged(&mut rng, way);
            for key in [&b""[..], b"NOTE", b"STACK", b"~"] {
                quick_alike(&case.buffer, case.length, key, &mut met);
            }
            trace_alike(&case.buffer, case.length, &mut met);
        }
    }
    for _ in 0..3_000 {
        let (buffer, length) = mutated(&mut rng);
        quick_alike(&buffer, length, b"NOTE", &mut met);
        trace_alike(&buffer, length, &mut met);
        let laid = Model::random(&mut rng).lay();
        let mut keys = vec![b"".to_vec(), b"NOTE".to_vec(), b"A B".to_vec()];
        for string in (0..i64::from(laid.file.n)).flat_map(|part| laid.strings(part)) {
            let keyword = &laid.buffer[string.keyword.clone()];
            keys.push(keyword.to_vec());
            keys.push(keyword[..keyword.len() - 1].to_vec());
        }
        for key in keys {
            quick_alike(&laid.buffer, laid.length, &key, &mut met);
        }
        trace_alike(&laid.buffer, laid.length, &mut met);
    }
    // 21 and 22, which these values do not meet, `locations` does
    let rows = (0..=18).chain([20, 23, 32, 33]);
    assert_eq!(met, rows.collect());
}

/// The rows met by the lenient answers, and by the strict checks beside them.
type Met = [BTreeSet<u32>; 2];

/// The archive's lenient answer and its strict row, as the plain side gives them.
macro_rules! both_expected {
    ($met:ident, $archive:expr, $told:expr) => {{
        let archive = $archive;
        let [lenient, strict] = &mut *$met;
        let answer = expected!(lenient, archive.answer, $told);
        let beside = expected!(strict, archive.strict, |_| ());
        (answer, beside.err())
    }};
}

/// The check, beside the archive's and the reference's.
fn lenient_check_alike(buffer: &[u8], length: usize, met: &mut Met) {
    let archive = calls::lenient_check(buffer, length);
    let expected = both_expected!(met, archive, |_| ());
    assert_eq!(plain_lenient::check(buffer, length), expected);
    assert_eq!(plain_lenient::check_as_needed(buffer, length), expected);
    let reference = reference::lenient_check(buffer, length);
    let answer = reference.answer.map(|_| ()).map_err(told);
    assert_eq!((answer, reference.strict.map(told)), expected);
}

/// The other lenient questions, rows included, of the right length and of others.
fn lenient_alike(buffer: &[u8], length: usize, keys: &[Vec<u8>], met: &mut Met) {
    for part in TRACES {
        for key in keys {
            let archive = calls::lenient_value(buffer, length, part, key);
            let place = |a: raw::Value| (a.value_start, a.value_length);
            let answer = plain_lenient::value(buffer, length, part, key);
            let expected = both_expected!(met, archive, place);
            assert_eq!(answer, expected, "{part} {}", key.escape_ascii());
        }
        let count = calls::lenient_string_count(buffer, length, part);
        let block = calls::lenient_trace_block(buffer, length, part);
        for more in [0, 1] {
            let size = 4 * count.answer.count + more;
            let (mut row, mut plainly) = (vec![7; size], vec![7; size]);
            let archive = calls::lenient_strings(buffer, length, part, &mut row);
            let answer = plain_lenient::strings(buffer, length, part, &mut plainly);
            assert_eq!(answer, both_expected!(met, archive, |_| ()));
            assert_eq!(plainly, row);
            let size = block.answer.sample_count + more;
            let (mut row, mut plainly) = (vec![7; size], vec![7; size]);
            let archive = calls::lenient_integers(buffer, length, part, &mut row);
            let answer = plain_lenient::integers(buffer, length, part, &mut plainly);
            assert_eq!(answer, both_expected!(met, archive, |_| ()));
            assert_eq!(plainly, row);
        }
    }
}

/// Keys to ask of a file of an older recorder: its keywords as they stand and as they count.
fn old_keys(buffer: &[u8], file: &reference::File) -> Vec<Vec<u8>> {
    let traces = file.traces.iter().flat_map(|trace| &trace.strings);
    let mut keys = vec![b"".to_vec(), b"NOTE".to_vec(), b"note".to_vec()];
    for string in file.strings.iter().chain(traces) {
        let keyword = &buffer[string.keyword.clone()];
        keys.extend([keyword.to_vec(), keyword.to_ascii_uppercase()]);
    }
    keys
}

/// Document 02, §11, on files of older recorders, whole and damaged, and on others.
#[test]
fn lenient_questions() {
    let mut rng = Rng::new(808);
    let mut met = Met::default();
    for _ in 0..3_000 {
        let case = old_case(&mut rng);
        let (buffer, length) = (&case.buffer, case.length);
        lenient_check_alike(buffer, length, &mut met);
        let keys = match &case.lenient {
            Ok(file) => old_keys(buffer, file),
            Err(_) => vec![b"NOTE".to_vec()],
        };
        lenient_alike(buffer, length, &keys, &mut met);
        let (buffer, length) = mutated_old(&mut rng);
        lenient_check_alike(&buffer, length, &mut met);
        let laid = Model::random(&mut rng).lay();
        lenient_check_alike(&laid.buffer, laid.length, &mut met);
        lenient_alike(&laid.buffer, laid.length, &[b"NOTE".to_vec()], &mut met);
    }
    let [lenient, strict] = met;
    assert_eq!(lenient, (0..=16).chain([18, 32, 33]).collect());
    assert_eq!(strict, (0..=17).chain([34]).collect());
}

/// The benchmark's own files: which rule the strict check misses, and that the lenient one
/// takes them.
#[test]
fn older_files() {
    for order in [0, 1] {
        let strict = |bytes: &[u8]| {
            let told = plain_lenient::check(bytes, bytes.len());
            assert_eq!(told.0, Ok(()));
            told.1
        };
        let good = file(order, 3, 4);
        assert_eq!(strict(&good), None);
        let laid = reference::check(&good, good.len()).expect("a file");
        let own = laid.strings[0].keyword.start - 2;
        assert_eq!(strict(&older_file(order, 3, 4, -1)), Some((16, -1, own)));
        let third = laid.traces[2].p as usize + 32;
        let old = older_file(order, 3, 4, 2);
        assert_eq!(strict(&old), Some((16, 2, third)));
        let strings = reference::lenient_string_count(&old, old.len(), 2);
        assert_eq!(strings.answer, Ok(7));
        let first = reference::lenient_string(&old, old.len(), 2, 0).answer;
        let first = first.expect("strings").expect("a string");
        assert_eq!(&old[first.keyword.start..first.value.end], b"stack 4");
    }
}

/// Locations by themselves, of every kind of text, beside the reference.
#[test]
fn locations() {
    let mut rng = Rng::new(807);
    let mut met = BTreeSet::new();
    for _ in 0..60_000 {
        let text = match rng.one_in(2) {
            true => location_case(&mut rng).text,
            false => number_case(&mut rng).text,
        };
        let expected = reference::location(&text).map_err(told);
        let expected = expected.map(|l| by_bits((l.count.into(), [l.x, l.y, l.z], l.decimals)));
        let answer = plain_number::location(&text).map(by_bits);
        assert_eq!(answer, expected, "{}", text.escape_ascii());
        met.insert(answer.map_or_else(|refused| refused.0, |_| 0));
    }
    assert_eq!(met, [0, 20, 21, 22, 23].into());
}

#[test]
fn additions() {
    let mut rng = Rng::new(803);
    let mut met = BTreeSet::new();
    for _ in 0..8_000 {
        let case = addition_case(&mut rng);
        let mut buffer = case.buffer.clone();
        let (length, sheet, code) = (case.length, &case.sheet, u32::from(case.code));
        let answer = match &case.row {
            Row::Integers(row) => plain_file::add_integers(&mut buffer, length, sheet, code, row),
            Row::Bits(row) => plain_file::add_bits(&mut buffer, length, sheet, code, row),
        };
        assert_eq!(answer, case.expected.map_err(told));
        assert!(buffer == case.after);
        met.insert(answer.map_or_else(|refused| refused.0, |_| 0));
    }
    assert!([0, 27, 28, 34, 35]
        .iter()
        .all(|number| met.contains(number)));
}

/// Document 02, §7: the values by hand, in a trace and in a sheet.
#[test]
fn channel_numbers() {
    for (values, good) in [(CHANNEL_NUMBERS, true), (NO_CHANNEL_NUMBERS, false)] {
        for value in values {
            let string = format!("CHANNEL_NUMBER {value}");
            let strings = [string.as_bytes()];
            let bytes = plain_file(Order::High, &[], &[PlainTrace::of_strings(&strings)]);
            checks_alike(&bytes, bytes.len());
            let answer = plain_file::check(&bytes, bytes.len(), false);
            assert_eq!(answer.is_ok(), good, "{value}");
            let mut buffer = vec![0; 200];
            let length = reference::start(&mut buffer, 0, 1, b"").expect("room");
            let sheet = format!("CHANNEL_NUMBER\t{value}\n");
            let answer = plain_file::add_integers(&mut buffer, length, sheet.as_bytes(), 1, &[1]);
            assert_eq!(answer.map(|_| ()).err(), (!good).then_some((35, -1, 0)));
        }
    }
}

#[test]
fn samples_read() {
    let mut rng = Rng::new(804);
    let mut met = BTreeSet::new();
    for _ in 0..8_000 {
        let case = sample_case(&mut rng);
        let Ok(trace) = i32::try_from(case.trace) else {
            continue;
        };
        let (buffer, length) = (&case.buffer, case.length);
        match case.question {
            SampleQuestion::Integers { row, expected } => {
                let mut row = vec![7; row];
                let before = row.clone();
                let answer = plain_file::integers(buffer, length, trace, &mut row);
                assert_eq!(answer, expected.clone().map(|_| ()).map_err(told));
                assert_eq!(row, expected.unwrap_or(before));
                met.insert(answer.map_or_else(|refused| refused.0, |_| 0));
            }
            SampleQuestion::Bits {
                row,
                classes,
                expected,
            } => {
                let (mut row, mut classes) = (vec![7; row], vec![7; classes]);
                let before = (row.clone(), classes.clone());
                let answer = plain_file::bits(buffer, length, trace, &mut row, &mut classes);
                assert_eq!(answer, expected.clone().map(|_| ()).map_err(told));
                assert_eq!((row, classes), expected.unwrap_or(before));
                met.insert(answer.map_or_else(|refused| refused.0, |_| 0));
            }
        }
    }
    assert_eq!(met, [0, 18, 32, 33].into());
}

#[test]
fn samples_written() {
    let mut rng = Rng::new(805);
    for _ in 0..8_000 {
        let count = 4 * rng.between(0, 80);
        let wild = rng.one_in(4);
        for (order, high) in [(Order::Low, false), (Order::High, true)] {
            for code in 1..=3 {
                let row = some_integers(&mut rng, code, count, wild);
                let mut part = vec![7; 8 * count];
                let outside = plain::first_outside(code, &row);
                let taken = outside.is_none() && plain::put_integers(code, &row, high, &mut part);
                written_alike(encode_integers(code, order, &row), outside, taken, &part);
            }
            for code in 4..=5 {
                let row = some_patterns(&mut rng, code, count, wild);
                let mut part = vec![7; 8 * count];
                let wide = plain::first_wide(code, &row);
                let taken = wide.is_none() && plain::put_bits(code, &row, high, &mut part);
                written_alike(encode_bits(code, order, &row), wide, taken, &part);
            }
        }
    }
}

/// The sample that cannot be held, whether the row was taken, and the bytes written.
fn written_alike(
    expected: Result<Vec<u8>, Refusal>,
    not_held: Option<usize>,
    taken: bool,
    part: &[u8],
) {
    let place = expected.as_ref().err().map(|refusal| refusal.place);
    assert_eq!(not_held.map(|index| index as u64), place);
    assert_eq!(taken, expected.is_ok());
    if let Ok(data) = expected {
        assert_eq!(part[..data.len()], data);
    }
}
