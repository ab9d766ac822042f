//! Generated files: what the reader finds is what the model says. (How unclear rules are
//! read is tested in `readings.rs`.)

use seg2_reference::generate::*;
use seg2_reference::*;

/// A question about each string, by index and by keyword.
fn strings_match(laid: &Laid, part: i64) {
    let (buffer, length) = (&laid.buffer[..], laid.length);
    let strings = laid.strings(part);
    assert_eq!(string_count(buffer, length, part), Ok(strings.len()));
    for (i, expected) in strings.iter().enumerate() {
        let found = string(buffer, length, part, i);
        assert_eq!(found.as_ref(), Ok(&Some(expected.clone())));
        let word = &buffer[expected.keyword.clone()];
        assert_eq!(keyword(buffer, length, part, word), Ok(true));
        let value = keyword_value(buffer, length, part, word);
        let first = |s: &&StringPlace| &buffer[s.keyword.clone()] == word;
        assert_eq!(
            Some(value),
            strings.iter().find(first).map(|s| s.value.clone())
        );
    }
    assert_eq!(string(buffer, length, part, strings.len()), Ok(None));
    assert_eq!(keyword(buffer, length, part, b"@ABSENT"), Ok(false));
    assert_eq!(keyword_value(buffer, length, part, b"@ABSENT"), 0..0);
}

/// Values and NOTE lines against the model's own text.
fn texts_match(laid: &Laid, part: i64, area: &generate::model::AreaModel) {
    for (place, model) in laid.strings(part).iter().zip(&area.strings) {
        assert_eq!(laid.buffer[place.keyword.clone()], model.keyword);
        let value = &laid.buffer[place.value.clone()];
        if model.keyword == b"NOTE" {
            assert_eq!(note_lines(&laid.file, value), model.lines);
        } else {
            assert_eq!(value, model.lines[0]);
        }
    }
}

fn samples_match(laid: &Laid, k: i64, samples: &generate::model::SamplesModel) {
    let (buffer, length) = (&laid.buffer[..], laid.length);
    let mut integers = vec![77; samples.count()];
    let answer = samples_as_integers(buffer, length, k, &mut integers);
    match samples.integers() {
        Some(expected) => assert_eq!((answer, integers), (Ok(()), expected)),
        None => assert_eq!(answer, Err(Refusal::file(33, 0))),
    }
    let mut bits = vec![77; samples.count()];
    let mut classes = vec![77; samples.count()];
    let answer = samples_as_bits(buffer, length, k, &mut bits, &mut classes);
    match samples.bits() {
        Some(expected) => assert_eq!((answer, (bits, classes)), (Ok(()), expected)),
        None => assert_eq!(answer, Err(Refusal::file(33, 0))),
    }
}

#[test]
fn valid_files_read_as_their_models() {
    let mut rng = Rng::new(1);
    for _ in 0..8000 {
        let model = Model::random(&mut rng);
        let laid = model.lay();
        assert_eq!(check(&laid.buffer, laid.length).as_ref(), Ok(&laid.file));
        let for_addition = check_for_addition(&laid.buffer, laid.length);
        assert_eq!(for_addition.as_ref(), Ok(&laid.file));
        texts_match(&laid, -1, &model.area);
        for (k, trace) in model.traces.iter().enumerate() {
            texts_match(&laid, k as i64, &trace.area);
        }
    }
}

/// The two keywords that may repeat do so now and then, in files and in sheets.
#[test]
fn some_generated_keywords_repeat() {
    let mut rng = Rng::new(21);
    let (mut files, mut sheets) = ([0; 2], [0; 2]);
    let repeated: [&[u8]; 2] = [b"RECEIVER_GEOMETRY", b"SOURCE_GEOMETRY"];
    for _ in 0..4000 {
        let strings = Model::random(&mut rng).area.strings;
        let sheet = good_sheet(&mut rng).expected.expect("a good sheet");
        for (i, keyword) in repeated.iter().enumerate() {
            let times = |twice: bool| usize::from(twice);
            files[i] += times(strings.iter().filter(|s| s.keyword == *keyword).count() > 1);
            sheets[i] += times(sheet.iter().filter(|s| s.keyword == *keyword).count() > 1);
        }
    }
    assert!(
        files.iter().chain(&sheets).all(|&n| n > 100),
        "{files:?} {sheets:?}"
    );
}

#[test]
fn questions_answer_as_their_models() {
    let mut rng = Rng::new(2);
    for _ in 0..1500 {
        let model = Model::random(&mut rng);
        let laid = model.lay();
        let block = file_block(&laid.buffer, laid.length).expect("a file");
        let expected = (laid.file.order, laid.file.m, laid.file.n);
        assert_eq!((block.order, block.m, block.n), expected);
        assert_eq!(block.string_terminator, model.string_terminator);
        assert_eq!(block.line_terminator, model.line_terminator);
        strings_match(&laid, -1);
        for (k, trace) in model.traces.iter().enumerate() {
            strings_match(&laid, k as i64);
            samples_match(&laid, k as i64, &trace.samples);
            let found = trace_block(&laid.buffer, laid.length, k as i64);
            assert_eq!(found.as_ref(), Ok(&laid.file.traces[k]));
        }
    }
}

/// The S lines of an area, from the model's own text.
fn listed_strings(part: &str, area: &generate::model::AreaModel) -> String {
    let mut lines = String::new();
    for string in &area.strings {
        let keyword = String::from_utf8_lossy(&string.keyword);
        for line in &string.lines {
            let text = String::from_utf8_lossy(line).replace('\t', " ");
            lines += &format!("S\t{part}\t{keyword}\t{text}\n");
        }
    }
    lines
}

#[test]
fn listings_print_their_models() {
    let mut rng = Rng::new(12);
    for _ in 0..1000 {
        let model = Model::random(&mut rng);
        let laid = model.lay();
        let order = match model.order {
            Order::Low => "low",
            Order::High => "high",
        };
        let (n, m) = (model.traces.len(), 4 * model.slots);
        let mut expected = format!("SEG2\t{order}\t{n}\t{m}\n");
        expected += &listed_strings("F", &model.area);
        for (k, trace) in model.traces.iter().enumerate() {
            let (code, count) = (trace.samples.code(), trace.samples.count());
            expected += &format!("T\t{k}\t{code}\t{count}\n");
            expected += &listed_strings(&k.to_string(), &trace.area);
        }
        let listed = listing(&laid.buffer[..laid.length]);
        assert_eq!(String::from_utf8_lossy(&listed), expected);
    }
}

#[test]
fn refusals_are_listed_on_one_line() {
    let mut rng = Rng::new(13);
    // Where the length does not come with the input, the input is cut instead.
    for way in WAYS.iter().filter(|way| way.scope != Scope::Image) {
        let case = damaged(&mut rng, way);
        let Some(input) = case.buffer.get(..case.length) else {
            continue;
        };
        let Refusal {
            number,
            part,
            place,
        } = case.expected;
        let part = part.to_string().replace("-1", "F");
        let expected = format!("R\t{number}\t{part}\t{place}\n");
        assert_eq!(String::from_utf8_lossy(&listing(input)), expected);
    }
}

#[test]
fn images_are_accepted_by_an_addition_only() {
    let mut rng = Rng::new(3);
    for _ in 0..1500 {
        let laid = Model::image(&mut rng).lay();
        assert_eq!(check(&laid.buffer, laid.length), Err(Refusal::file(5, 6)));
        let found = check_for_addition(&laid.buffer, laid.length);
        assert_eq!(found, Ok(laid.file));
    }
}

/// Freedoms that the rules allow; every one must occur among the generated files.
fn freedoms(model: &Model, laid: &Laid) -> Vec<(&'static str, bool)> {
    let file = &laid.file;
    let is_pair = |t: &[u8], equal| t.len() == 2 && (t[0] == t[1]) == equal;
    let strings = model.area.strings.iter();
    let traces = model.traces.iter().zip(&file.traces);
    let some_string = |test: fn(&generate::model::StringModel) -> bool| strings.clone().any(test);
    let some_code = |code| file.traces.iter().any(|t| t.code == code && t.s > 0);
    vec![
        ("low first", file.order == Order::Low),
        ("high first", file.order == Order::High),
        ("code 1", some_code(1)),
        ("code 2", some_code(2)),
        ("code 3", some_code(3)),
        ("code 4", some_code(4)),
        ("code 5", some_code(5)),
        (
            "string terminator of one",
            file.string_terminator.len() == 1,
        ),
        (
            "string terminator of two",
            is_pair(&file.string_terminator, false),
        ),
        (
            "string terminator of two equal",
            is_pair(&file.string_terminator, true),
        ),
        ("line terminator of one", file.line_terminator.len() == 1),
        (
            "line terminator of two",
            is_pair(&file.line_terminator, false),
        ),
        (
            "line terminator of two equal",
            is_pair(&file.line_terminator, true),
        ),
        (
            "junk in an unused terminator byte",
            file.string_terminator.len() == 1 && laid.buffer[10] != 0,
        ),
        ("junk in reserved bytes", laid.buffer[14..32] != [0; 18]),
        (
            "junk in unused slots",
            model.spare_slots.iter().any(|&b| b != 0),
        ),
        ("no unused slots", file.m / 4 == file.n),
        ("bytes after the last trace", !model.after.is_empty()),
        (
            "a buffer longer than the length",
            laid.buffer.len() > laid.length,
        ),
        ("an empty file area", laid.area(-1).is_empty()),
        ("many traces", file.n > 20),
        ("a gap", traces.clone().any(|(t, _)| !t.gap.is_empty())),
        (
            "D larger than needed",
            traces.clone().any(|(t, _)| t.slack.len() > 4),
        ),
        ("B of 32", traces.clone().any(|(_, t)| t.b == 32)),
        ("no samples", traces.clone().any(|(_, t)| t.s == 0)),
        (
            "junk behind an end mark",
            matches!(&model.area.end, generate::model::End::Mark(junk) if junk.len() > 4),
        ),
        (
            "several separators",
            some_string(|s| s.separators.len() > 1),
        ),
        (
            "a tab as separator",
            some_string(|s| s.separators.contains(&b'\t')),
        ),
        (
            "a blank at a value's end",
            some_string(|s| s.lines[0].last() == Some(&b' ')),
        ),
        (
            "a tab in a value",
            some_string(|s| s.lines[0].contains(&b'\t')),
        ),
        (
            "an empty value without separators",
            some_string(|s| s.separators.is_empty()),
        ),
        (
            "an empty value behind separators",
            some_string(|s| s.lines.concat().is_empty() && !s.separators.is_empty()),
        ),
        (
            "a NOTE of several lines",
            some_string(|s| s.lines.len() > 2),
        ),
        (
            "an empty first line",
            some_string(|s| s.lines.len() > 1 && s.lines[0].is_empty()),
        ),
        (
            "an empty last line",
            some_string(|s| s.lines.len() > 1 && s.lines.ends_with(&[Vec::new()])),
        ),
    ]
}

#[test]
fn the_generator_uses_its_freedoms() {
    let mut rng = Rng::new(4);
    let mut times = std::collections::BTreeMap::new();
    for _ in 0..1000 {
        let model = Model::random(&mut rng);
        for (name, occurs) in freedoms(&model, &model.lay()) {
            *times.entry(name).or_insert(0) += usize::from(occurs);
        }
    }
    for (name, times) in times {
        assert!(times >= 5, "{name}: {times}");
    }
}

#[test]
fn each_single_damage_is_refused_as_it_must_be() {
    let mut rng = Rng::new(5);
    for way in WAYS {
        for _ in 0..200 {
            let case = damaged(&mut rng, way);
            let found = check(&case.buffer, case.length);
            let for_addition = check_for_addition(&case.buffer, case.length);
            let expected = Err(case.expected);
            match way.scope {
                Scope::Both => {
                    assert_eq!(found, expected, "{}", way.name);
                    assert_eq!(for_addition, expected, "{}", way.name);
                }
                Scope::Reading => {
                    assert_eq!(found, expected, "{}", way.name);
                    assert_ne!(for_addition, expected, "{}", way.name);
                }
                Scope::Image => {
                    assert_eq!(found, Err(Refusal::file(5, 6)), "{}", way.name);
                    assert_eq!(for_addition, expected, "{}", way.name);
                }
            }
        }
    }
}

/// Every question gives the check's refusal, and leaves the rows as they were.
#[test]
fn every_question_checks_the_whole_file_first() {
    let mut rng = Rng::new(6);
    for way in WAYS.iter().filter(|way| way.scope != Scope::Image) {
        for _ in 0..4 {
            let case = damaged(&mut rng, way);
            let (buffer, length) = (&case.buffer[..], case.length);
            let expected = case.expected;
            assert_eq!(file_block(buffer, length), Err(expected));
            assert_eq!(trace_block(buffer, length, 0), Err(expected));
            // A part that does not exist: 18 comes later.
            assert_eq!(trace_block(buffer, length, -7), Err(expected));
            assert_eq!(string_count(buffer, length, -1), Err(expected));
            assert_eq!(string(buffer, length, 0, 0), Err(expected));
            assert_eq!(keyword(buffer, length, 0, b"UNITS"), Err(expected));
            assert_eq!(keyword_value(buffer, length, 0, b"UNITS"), 0..0);
            let mut integers = [77; 3];
            let answer = samples_as_integers(buffer, length, 0, &mut integers);
            assert_eq!((answer, integers), (Err(expected), [77; 3]));
            let (mut bits, mut classes) = ([77; 3], [77; 3]);
            let answer = samples_as_bits(buffer, length, 0, &mut bits, &mut classes);
            assert_eq!((answer, bits), (Err(expected), [77; 3]));
            assert_eq!(classes, [77; 3]);
        }
    }
}

#[test]
fn damaged_images_are_refused_as_they_must_be() {
    let mut rng = Rng::new(7);
    let mut met = std::collections::BTreeSet::new();
    for _ in 0..1500 {
        let case = damaged_image(&mut rng);
        let found = check_for_addition(&case.buffer, case.length);
        assert_eq!(found, Err(case.expected), "{}", case.name);
        met.insert(case.expected.number);
    }
    assert_eq!(met, [1, 2, 3, 4, 5, 6, 7, 14, 15, 16, 17].into());
}

#[test]
fn of_several_damages_the_first_decides() {
    let mut rng = Rng::new(8);
    for _ in 0..6000 {
        let case = several_damages(&mut rng);
        let found = check(&case.buffer, case.length);
        assert_eq!(found, Err(case.expected));
        assert_eq!(found, check_for_addition(&case.buffer, case.length));
    }
}

#[test]
fn sample_questions() {
    let mut rng = Rng::new(9);
    for _ in 0..3000 {
        let case = sample_case(&mut rng);
        let (buffer, length) = (&case.buffer[..], case.length);
        match case.question {
            SampleQuestion::Integers { row, expected } => {
                let mut integers = vec![77; row];
                let answer = samples_as_integers(buffer, length, case.trace, &mut integers);
                assert_eq!(answer, expected.as_ref().map(|_| ()).map_err(|r| *r));
                assert_eq!(integers, expected.unwrap_or(vec![77; row]));
            }
            SampleQuestion::Bits {
                row,
                classes,
                expected,
            } => {
                let (mut bits, mut of_class) = (vec![77; row], vec![77; classes]);
                let answer = samples_as_bits(buffer, length, case.trace, &mut bits, &mut of_class);
                assert_eq!(answer, expected.as_ref().map(|_| ()).map_err(|r| *r));
                let unchanged = (vec![77; row], vec![77; classes]);
                assert_eq!((bits, of_class), expected.unwrap_or(unchanged));
            }
        }
    }
}

/// Whatever comes: an answer, the same from every entry, with places inside.
#[test]
fn mutations_never_panic() {
    let mut rng = Rng::new(10);
    let (mut accepted, mut refused) = (0, 0);
    for _ in 0..20_000 {
        let (mut buffer, length) = mutated(&mut rng);
        let found = check(&buffer, length);
        match &found {
            Ok(file) => {
                accepted += 1;
                let last = file.traces.last().expect("at least one");
                assert!(last.end() <= length as u64);
            }
            Err(refusal) => {
                refused += 1;
                assert!(is_of_check(refusal.number));
                assert!(refusal.place <= length as u64);
            }
        }
        let any = rng.bits() as i64;
        let part = rng.pick(&[-2, -1, 0, 1, 3, any]);
        let asked = keyword(&buffer, length, part, b"UNITS").map(|_| ());
        let expected = match &found {
            Ok(file) if part < -1 || part >= i64::from(file.n) => Err(Refusal::file(18, 0)),
            Ok(_) => Ok(()),
            Err(refusal) => Err(*refusal),
        };
        assert_eq!(asked, expected);
        let image = &buffer[..length.min(buffer.len())];
        let lines = listing(image);
        assert!(lines.ends_with(b"\n"));
        let (before, room) = (buffer.clone(), buffer.len() + rng.between(0, 200));
        buffer.resize(room, 0);
        let added = add_integers(&mut buffer, length, b"STACK\t1\n", 1, &[1, 2]);
        if added.is_err() {
            assert_eq!(buffer[..before.len()], before);
        }
    }
    assert!(accepted > 200 && refused > 200, "{accepted} {refused}");
}

/// Any bytes at all, and any length beside them.
#[test]
fn random_bytes_never_panic() {
    let mut rng = Rng::new(11);
    for _ in 0..2000 {
        let count = rng.between(0, 120);
        let mut buffer = rng.junk(count);
        if buffer.len() > 14 {
            buffer[..14].copy_from_slice(&[0x55, 0x3A, 1, 0, 4, 0, 1, 0, 1, 0, 0, 1, 10, 0]);
        }
        let any = rng.bits() as usize;
        for length in [0, 31, 32, count, count + 1, any, usize::MAX] {
            let found = check(&buffer, length);
            assert!(found.is_err() || length <= count);
            let found = check_for_addition(&buffer, length);
            assert!(found.is_err() || length <= count);
            let added = add_bits(&mut buffer, length, b"", 5, &[0]);
            assert!(added.is_err() || added.is_ok_and(|new| new <= buffer.len()));
        }
        let text = rng.junk(rng.clone().between(0, 30));
        assert!(number(&text).is_err() || !text.is_empty());
        assert!(location(&text).is_err() || !text.is_empty());
    }
}
