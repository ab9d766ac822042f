//! The safe wrapper beside the independent reader, on files of every kind that document
//! 01 allows, and its own parts: lines, iterators, the builder, the words.

mod own;

use own::{block as own_block, location, number as ours, pair, refusal as told};
use seg2::{calls, Builder, File, Number, Order, Pair, Refusal};
use seg2_reference as reference;
use seg2_reference::generate::{
    addition_case, forged_number, good_sheet, number_case, plain_file, sample_case, Laid, Model,
    PlainTrace, Rng, SampleQuestion,
};

/// A valid file by the wrapper and by the independent reader.
fn both(laid: &Laid) -> (File<'_>, reference::File) {
    let file = File::open_prefix(&laid.buffer, laid.length).expect("a valid file");
    let expected = reference::check(&laid.buffer, laid.length).expect("a valid file");
    (file, expected)
}

type Pairs<'a> = Vec<Pair<'a>>;

/// The strings of a part by the independent reader.
fn pairs<'a>(buffer: &'a [u8], strings: &[reference::StringPlace]) -> Pairs<'a> {
    strings.iter().map(|s| pair(buffer, s)).collect()
}

#[test]
fn a_file_is_read_as_the_reference_reads_it() {
    let mut rng = Rng::new(201);
    for _ in 0..1500 {
        let laid = Model::random(&mut rng).lay();
        let (file, expected) = both(&laid);
        assert_eq!(file.bytes(), &laid.buffer[..laid.length]);
        assert_eq!(file.high_first(), expected.order == reference::Order::High);
        assert_eq!(file.order() == Order::High, file.high_first());
        assert_eq!(file.pointer_room(), usize::from(expected.m));
        assert_eq!(file.trace_count(), usize::from(expected.n));
        assert_eq!(file.string_terminator(), expected.string_terminator);
        assert_eq!(file.line_terminator(), expected.line_terminator);
        let strings = pairs(&laid.buffer, &expected.strings);
        assert_eq!(file.strings().collect::<Pairs>(), strings);
        assert_eq!(file.string_count(), strings.len());
        assert_eq!(file.traces().len(), expected.traces.len());
        assert_eq!(file.traces().count(), expected.traces.len());
        for (trace, block) in file.traces().zip(&expected.traces) {
            assert_eq!(trace.start(), block.p as usize);
            assert_eq!(trace.block_size(), usize::from(block.b));
            assert_eq!(trace.data_size(), block.d as usize);
            assert_eq!(trace.data().len(), trace.data_size());
            assert_eq!(trace.sample_count(), block.s as usize);
            assert_eq!(trace.code(), u32::from(block.code));
            assert_eq!(trace.block(), own_block(block));
            let strings = pairs(&laid.buffer, &block.strings);
            assert_eq!(trace.strings().collect::<Pairs>(), strings);
            assert_eq!(trace.string_count(), strings.len());
            assert_eq!(trace.string(strings.len()), None);
        }
    }
}

#[test]
fn values_are_the_buffers_own_bytes() {
    let mut rng = Rng::new(202);
    for _ in 0..1500 {
        let laid = Model::random(&mut rng).lay();
        let (file, expected) = both(&laid);
        // the first string with the keyword of another
        let first = |strings: &[reference::StringPlace], i: usize| {
            let word = |s: &reference::StringPlace| laid.buffer[s.keyword.clone()].to_vec();
            let found = strings.iter().find(|s| word(s) == word(&strings[i]));
            found.expect("at least itself").clone()
        };
        for i in 0..expected.strings.len() {
            let string = first(&expected.strings, i);
            let keyword = &laid.buffer[string.keyword.clone()];
            let value = file.value(keyword).expect("a value");
            assert!(file.has(keyword));
            assert_eq!(value.as_ptr(), laid.buffer[string.value.clone()].as_ptr());
            assert_eq!(value, &laid.buffer[string.value.clone()]);
        }
        for (trace, block) in file.traces().zip(&expected.traces) {
            for i in 0..block.strings.len() {
                let string = first(&block.strings, i);
                let keyword = &laid.buffer[string.keyword.clone()];
                assert_eq!(
                    trace.value(keyword),
                    Some(&laid.buffer[string.value.clone()])
                );
                assert!(trace.has(keyword));
            }
            assert_eq!(trace.value(b"no such keyword"), None);
            assert_eq!(trace.value(b""), None);
        }
        assert_eq!(file.value(b"no such keyword"), None);
    }
}

#[test]
fn numbers_in_values_are_answered_as_the_reference_answers_them() {
    let mut rng = Rng::new(203);
    for _ in 0..1500 {
        let laid = Model::random(&mut rng).lay();
        let file = File::open_prefix(&laid.buffer, laid.length).expect("a valid file");
        for trace in file.traces() {
            for (keyword, _) in trace.strings() {
                // of several with the keyword, the first
                let first = trace.strings().find(|(k, _)| *k == keyword);
                let (_, value) = first.expect("at least itself");
                let number = reference::number(value).map(ours).map_err(told);
                assert_eq!(trace.number(keyword), number);
                assert_eq!(Number::read(value), number);
                assert_eq!(
                    trace.double(keyword),
                    reference::double(value).map_err(told)
                );
                let expected = reference::location(value).map(location).map_err(told);
                assert_eq!(trace.location(keyword), expected);
            }
            assert_eq!(
                trace.number(b"missing").map_err(|r| (r.number, r.place)),
                Err((20, 0))
            );
            assert_eq!(
                trace.double(b"missing").map_err(|r| (r.number, r.place)),
                Err((20, 0))
            );
            assert_eq!(
                trace.location(b"missing").map_err(|r| (r.number, r.place)),
                Err((23, 0))
            );
        }
    }
}

/// A text that was typed is written back with its own decimals and reads as the same
/// number; a number is refused as the reference refuses it, and nothing has changed then.
#[test]
fn numbers_are_written_as_the_reference_writes_them() {
    let mut rng = Rng::new(209);
    let mut texts = 0;
    for _ in 0..3000 {
        let case = number_case(&mut rng);
        let number = Number::read(&case.text);
        assert_eq!(number, case.number.map(ours).map_err(told));
        let Ok(number) = number else { continue };
        let text = number.text().expect("what was read is written");
        assert_eq!(Some(text.as_bytes()), case.written.as_deref());
        assert_eq!(Number::read(text.as_bytes()), Ok(number));
        texts += 1;
    }
    assert!(texts > 1000, "{texts}");
    for _ in 0..6000 {
        let forged = forged_number(&mut rng);
        let room = rng.between(0, 26);
        let mut expected = vec![b'_'; room];
        let mut bytes = expected.clone();
        let answer = reference::write_number(&mut expected, forged).map_err(told);
        let number = ours(forged);
        assert_eq!(number.write(&mut bytes), answer, "{number:?}");
        assert_eq!(bytes, expected, "{number:?}");
        let without_room = answer.err().filter(|refusal| refusal.number != 30);
        assert_eq!(number.text().err(), without_room, "{number:?}");
    }
}

#[test]
fn lines_are_parted_as_the_reference_parts_them() {
    let mut rng = Rng::new(204);
    let mut notes = 0;
    for _ in 0..3000 {
        let laid = Model::random(&mut rng).lay();
        let (file, expected) = both(&laid);
        for trace in file.traces() {
            let Some(value) = trace.value(b"NOTE") else {
                assert_eq!(trace.note().count(), 0);
                continue;
            };
            notes += 1;
            let lines = reference::note_lines(&expected, value);
            assert_eq!(trace.note().collect::<Vec<_>>(), lines);
            assert_eq!(file.lines(value).collect::<Vec<_>>(), lines);
        }
        assert_eq!(file.note().count() > 0, file.has(b"NOTE"));
    }
    assert!(notes > 100, "{notes}");
}

/// All strings of a part in one call: four places for each, in order, and a row of another
/// length is 32 and left as it was. Of the file, and of traces fully and quickly.
#[test]
fn strings_come_in_one_row() {
    type Call = fn(&[u8], usize, i32, &mut [usize]) -> seg2::raw::Verdict;
    let mut rng = Rng::new(205);
    let mut listed = 0;
    for _ in 0..1500 {
        let laid = Model::random(&mut rng).lay();
        let (file, expected) = both(&laid);
        let answered = |call: Call, part: i32, strings: &[reference::StringPlace]| {
            let places: Vec<usize> = strings.iter().flat_map(|s| s.numbers()).collect();
            let mut row = vec![7; places.len()];
            let answer = call(&laid.buffer, laid.length, part, &mut row);
            assert_eq!((answer.number, answer.part, answer.place), (0, -1, 0));
            assert_eq!(row, places);
            for other in [places.len() + 1, places.len() + 4, places.len() / 2] {
                let mut row = vec![7; other];
                let answer = call(&laid.buffer, laid.length, part, &mut row);
                // half of an empty row is the row
                let number = if other == places.len() { 0 } else { 32 };
                assert_eq!((answer.number, answer.part, answer.place), (number, -1, 0));
                assert_eq!(row, vec![7; other]);
            }
        };
        answered(calls::strings, -1, &expected.strings);
        for (k, block) in expected.traces.iter().enumerate() {
            answered(calls::strings, k as i32, &block.strings);
            answered(calls::quick_strings, k as i32, &block.strings);
            listed += block.strings.len();
        }
        // what the iterators say is left, and what they give behind their last
        let mut strings = file.strings();
        for (i, string) in pairs(&laid.buffer, &expected.strings).iter().enumerate() {
            assert_eq!(strings.len(), expected.strings.len() - i);
            assert_eq!(strings.next(), Some(*string));
            assert_eq!(file.string(i), Some(*string));
        }
        assert_eq!(
            (strings.next(), strings.next(), strings.len()),
            (None, None, 0)
        );
        let mut traces = file.traces();
        assert_eq!(traces.by_ref().count(), file.trace_count());
        assert_eq!((traces.next().map(|t| t.index()), traces.len()), (None, 0));
    }
    assert!(listed > 1000, "{listed}");
}

/// Everything of a file behind one check of it, and how many strings and samples that was.
fn everything(bytes: &[u8]) -> (usize, usize) {
    let file = File::open(bytes).expect("a file");
    let (mut strings, mut samples) = (file.strings().count(), 0);
    for trace in file.traces() {
        strings += trace.strings().count();
        assert_eq!(trace.string_count(), 2);
        assert_eq!(trace.string(1), Some((&b"STACK"[..], &b"4"[..])));
        assert!(trace.has(b"STACK") && trace.note().next().is_none());
        assert_eq!(trace.value(b"DELAY"), Some(&b"-0.5"[..]));
        assert_eq!(trace.number(b"STACK").map(|n| n.coefficient), Ok(4));
        assert_eq!(trace.double(b"DELAY"), Ok(-0.5));
        assert_eq!(trace.location(b"DELAY").map(|at| at.count), Ok(1));
        samples += trace.integers().map_or(0, |row| row.len());
        assert_eq!(trace.bits().map_err(|refusal| refusal.number), Err(33));
    }
    (strings, samples)
}

/// Each question on a trace reads that trace alone. So ten times as many traces take some ten
/// times as long, where a check of the file for each question would take a hundred times.
#[test]
fn all_traces_take_time_in_proportion_to_their_number() {
    let least = |traces: usize| {
        let trace = || PlainTrace {
            strings: &[b"DELAY -0.5", b"STACK 4"],
            code: 1,
            count: 2,
            data: &[1, 0, 2, 0],
        };
        let traces: Vec<PlainTrace> = (0..traces).map(|_| trace()).collect();
        let bytes = plain_file(reference::Order::High, &[b"UNITS METERS"], &traces);
        let timed = |_| {
            let began = std::time::Instant::now();
            let met = everything(&bytes);
            assert_eq!(met, (1 + 2 * traces.len(), 2 * traces.len()));
            began.elapsed()
        };
        (0..6).map(timed).min().expect("six times")
    };
    let (few, many) = (least(400), least(4000));
    assert!(many < 40 * few, "{few:?} and {many:?}");
}

#[test]
fn samples_are_answered_as_the_generator_expects() {
    let mut rng = Rng::new(206);
    for _ in 0..6000 {
        let case = sample_case(&mut rng);
        let file = File::open_prefix(&case.buffer, case.length).expect("a valid file");
        let Ok(trace) = file.trace(usize::try_from(case.trace).unwrap_or(usize::MAX)) else {
            assert!(case.trace < 0 || case.trace >= file.trace_count() as i64);
            continue;
        };
        match case.question {
            SampleQuestion::Integers { row, expected } => {
                let mut given = vec![7; row];
                let answer = trace.integers_into(&mut given);
                assert_eq!(answer, expected.clone().map(|_| ()).map_err(told));
                assert_eq!(given, expected.clone().unwrap_or(vec![7; row]));
                if expected.is_ok() {
                    assert_eq!(trace.integers(), Ok(given.clone()));
                    assert_eq!(
                        trace.doubles(),
                        Ok(given.into_iter().map(f64::from).collect())
                    );
                }
                assert_eq!(trace.integers().is_ok(), trace.is_integers());
            }
            SampleQuestion::Bits {
                row,
                classes,
                expected,
            } => {
                let (mut given, mut kinds) = (vec![7; row], vec![7; classes]);
                let answer = trace.bits_into(&mut given, &mut kinds);
                assert_eq!(answer, expected.clone().map(|_| ()).map_err(told));
                let left = expected.clone().unwrap_or((vec![7; row], vec![7; classes]));
                assert_eq!((&given, &kinds), (&left.0, &left.1));
                if expected.is_ok() {
                    let bits = trace.bits().expect("bits");
                    assert_eq!((bits.patterns, bits.classes), (given, kinds));
                }
                assert_eq!(trace.bits().is_err(), trace.is_integers());
            }
        }
    }
}

#[test]
fn no_such_trace_is_18_for_every_index() {
    let mut shot = Builder::start(Order::Low, 2, b"").expect("a start");
    shot.add_integers(b"", 1, &[1]).expect("a trace");
    let file = File::open(shot.bytes()).expect("a file");
    for index in [
        1,
        2,
        65_535,
        65_536,
        1 << 31,
        (1 << 32) - 1,
        1 << 32,
        usize::MAX,
    ] {
        let refusal = file.trace(index).expect_err("no such trace");
        assert_eq!((refusal.number, refusal.part, refusal.place), (18, -1, 0));
    }
}

#[test]
fn lent_writers_and_the_builder_write_what_the_reference_writes() {
    let mut rng = Rng::new(207);
    let (mut written, mut refused) = (0, 0);
    for _ in 0..3000 {
        let case = addition_case(&mut rng);
        let code = case.code;
        let (mut theirs, mut ours) = (case.buffer.clone(), case.buffer.clone());
        let image = case.buffer.get(..case.length).map(<[u8]>::to_vec);
        let mut builder = image.clone().map(Builder::resume);
        let (expected, answer, built) = match &case.row {
            reference::Row::Integers(row) => (
                reference::add_integers(&mut theirs, case.length, &case.sheet, code, row),
                seg2::add_integers(&mut ours, case.length, &case.sheet, code.into(), row),
                builder
                    .as_mut()
                    .map(|b| b.add_integers(&case.sheet, code.into(), row)),
            ),
            reference::Row::Bits(row) => (
                reference::add_bits(&mut theirs, case.length, &case.sheet, code, row),
                seg2::add_bits(&mut ours, case.length, &case.sheet, code.into(), row),
                builder
                    .as_mut()
                    .map(|b| b.add_bits(&case.sheet, code.into(), row)),
            ),
        };
        assert_eq!(answer, expected.map_err(told));
        assert_eq!(ours, theirs);
        // the builder grows, so it alone is not refused by 30
        let (Some(image), Some(builder), Some(built)) = (image, builder, built) else {
            continue;
        };
        match answer {
            Ok(length) => {
                assert_eq!(built, Ok(()));
                assert_eq!(builder.bytes(), &ours[..length]);
                written += 1;
            }
            Err(refusal) if refusal.number != 30 => {
                assert_eq!(built, Err(refusal));
                assert_eq!(builder.bytes(), image);
                refused += 1;
            }
            Err(_) => assert_eq!(built, Ok(())),
        }
    }
    assert!(written > 500 && refused > 500, "{written} {refused}");
}

#[test]
fn the_builder_has_room_for_every_sheet() {
    // terminators of two characters make the longest strings: more than a new file's
    let mut rng = Rng::new(208);
    let mut tried = 0;
    for _ in 0..4000 {
        let laid = Model::random(&mut rng).lay();
        let sheet = good_sheet(&mut rng).sheet;
        let image = laid.buffer[..laid.length].to_vec();
        let mut theirs = image.clone();
        theirs.resize(laid.length + 70_000, 0);
        let expected = reference::add_integers(&mut theirs, laid.length, &sheet, 1, &[1]);
        let mut builder = Builder::resume(image);
        let answer = builder.add_integers(&sheet, 1, &[1]);
        assert_eq!(answer, expected.map(|_| ()).map_err(told));
        if let Ok(length) = expected {
            assert_eq!(builder.bytes(), &theirs[..length]);
            tried += 1;
        }
    }
    assert!(tried > 100, "{tried}");
}

#[test]
fn the_builder_ends_at_the_maximum() {
    let mut shot = Builder::start(Order::Low, 3, b"").expect("a start");
    let start = shot.bytes().len();
    let room = seg2::MAXIMUM_LENGTH - start - 36;
    let full = vec![1; room / 4];
    shot.add_integers(b"", 2, &full)
        .expect("exactly the maximum");
    assert_eq!(shot.bytes().len(), seg2::MAXIMUM_LENGTH);
    let before = shot.clone();
    let refusal = shot.add_integers(b"", 2, &[]).expect_err("no room");
    assert_eq!(
        refusal.to_string(),
        "refused (30): the result is longer than the buffer or than 67,108,864 bytes"
    );
    assert_eq!(shot, before);
    // over the maximum nothing is accepted, and nothing is cut off
    let mut long = shot.finish();
    long.extend([9, 9, 9, 9]);
    let mut over = Builder::resume(long);
    assert_eq!(
        over.add_integers(b"", 2, &[]).expect_err("too long").number,
        1
    );
    assert_eq!(over.bytes().len(), seg2::MAXIMUM_LENGTH + 4);
}

/// Document 02, §7: what the builder refuses by 35 has changed nothing, and a file with
/// channel numbers in some traces alone is refused by 34, in its trace.
#[test]
fn channel_numbers_stand_in_all_traces_or_none() {
    let (with, without) = (&b"CHANNEL_NUMBER\t7\n"[..], &b"STACK\t1\n"[..]);
    for (first, other) in [(with, without), (without, with)] {
        let mut shot = Builder::start(Order::High, 4, b"CHANNEL_NUMBER\tfree\n").expect("a start");
        shot.add_integers(first, 2, &[1]).expect("free to choose");
        let before = shot.bytes().to_vec();
        for sheet in [other, b"CHANNEL_NUMBER\t0\n"] {
            let refusal = shot.add_bits(sheet, 5, &[1]).expect_err("35");
            assert_eq!((refusal.number, refusal.part, refusal.place), (35, -1, 0));
            assert_eq!(refusal.counts(), seg2::Place::Nothing);
            assert_eq!(shot.bytes(), before);
        }
        shot.add_bits(first, 5, &[1]).expect("as the first");
        assert_eq!(File::open(shot.bytes()).map(|f| f.trace_count()), Ok(2));
    }
    let strings: [&[&[u8]]; 2] = [&[b"CHANNEL_NUMBER 1"], &[]];
    let bytes = plain_file(
        reference::Order::Low,
        &[],
        &strings.map(PlainTrace::of_strings),
    );
    let refusal = File::open(&bytes).expect_err("34");
    let expected = reference::check(&bytes, bytes.len()).expect_err("34");
    assert_eq!(refusal, told(expected));
    let place = refusal.place;
    let start = format!("refused (34) in trace 1 at byte {place}: the trace's CHANNEL_NUMBER");
    assert!(refusal.to_string().starts_with(&start), "{refusal}");
}

#[test]
fn a_refusal_is_an_error() {
    let error: Box<dyn std::error::Error> = Box::new(Refusal {
        number: 5,
        part: -1,
        place: 6,
    });
    assert!(error
        .to_string()
        .starts_with("refused (5) in the file at byte 6: "));
}

#[test]
fn empty_slices_are_answered() {
    assert_eq!(seg2::check(&[], 0).map_err(|r| r.number), Err(1));
    assert_eq!(seg2::check(&[], usize::MAX).map_err(|r| r.number), Err(1));
    assert_eq!(File::open(&[]).map_err(|r| r.number).err(), Some(1));
    assert_eq!(
        seg2::start(&mut [], Order::Low, 1, &[]).map_err(|r| r.number),
        Err(30)
    );
    assert_eq!(Number::read(&[]).map_err(|r| r.number), Err(20));
    let seven = Number::read(b"7").expect("a number");
    assert_eq!(seven.write(&mut []).map_err(|r| r.number), Err(30));
    assert_eq!(
        seg2::add_integers(&mut [], 0, &[], 1, &[]).map_err(|r| r.number),
        Err(1)
    );
    assert_eq!(
        seg2::add_bits(&mut [], 0, &[], 4, &[]).map_err(|r| r.number),
        Err(1)
    );
    let mut shot = Builder::start(Order::Low, 1, &[]).expect("a start");
    shot.add_bits(&[], 4, &[]).expect("a trace without samples");
    let file = File::open(shot.bytes()).expect("a file");
    let bits = file.trace(0).and_then(|t| t.bits()).expect("no samples");
    assert_eq!((bits.patterns.len(), bits.classes.len()), (0, 0));
    assert_eq!((file.string_count(), file.strings().count()), (0, 0));
}
