//! Document 02, §7: channel numbers in all traces or none. How it is read, in which order
//! its rows come, and that the generated cases reach all of it.

mod common;

use common::{number_of, refusal};
use seg2_reference::generate::model::AreaModel;
use seg2_reference::generate::*;
use seg2_reference::worked::{CHANNEL_NUMBERS, NO_CHANNEL_NUMBERS};
use seg2_reference::*;

/// The string with a value.
fn channel(value: &str) -> Vec<u8> {
    format!("CHANNEL_NUMBER {value}").into_bytes()
}

/// A file whose traces have these strings each.
fn file_of_texts(order: Order, traces: &[&[&[u8]]]) -> Vec<u8> {
    let traces: Vec<PlainTrace> = traces.iter().map(|t| PlainTrace::of_strings(t)).collect();
    plain_file(order, &[b"UNITS METERS"], &traces)
}

/// Where trace k's block starts.
fn pointer(bytes: &[u8], order: Order, k: usize) -> usize {
    let slot: [u8; 4] = bytes[32 + 4 * k..36 + 4 * k].try_into().expect("four");
    match order {
        Order::Low => u32::from_le_bytes(slot) as usize,
        Order::High => u32::from_be_bytes(slot) as usize,
    }
}

/// Both checks give row 34 at p+32 of trace k, or accept it.
fn judged(order: Order, traces: &[&[&[u8]]], refused_at: Option<usize>) {
    let bytes = file_of_texts(order, traces);
    let expected = match refused_at {
        Some(k) => Err(refusal(34, k as i64, pointer(&bytes, order, k) + 32)),
        None => Ok(()),
    };
    assert_eq!(check(&bytes, bytes.len()).map(|_| ()), expected);
    assert_eq!(
        check_for_addition(&bytes, bytes.len()).map(|_| ()),
        expected
    );
}

#[test]
fn values() {
    for text in CHANNEL_NUMBERS {
        assert!(is_channel_number(text.as_bytes()), "{text}");
    }
    for text in NO_CHANNEL_NUMBERS {
        assert!(!is_channel_number(text.as_bytes()), "{text}");
    }
    // Every number of so many digits, by counting.
    for number in 0..100_000_u32 {
        let good = (1..=32_767).contains(&number);
        for text in [number.to_string(), format!("{number:05}")] {
            assert_eq!(is_channel_number(text.as_bytes()), good, "{text}");
        }
    }
    // No other byte than a digit, anywhere.
    for byte in 0..=255_u8 {
        for text in [
            &[byte][..],
            &[byte, b'1'],
            &[b'1', byte],
            &[b'1', byte, b'1'],
        ] {
            let digits = text.iter().all(u8::is_ascii_digit);
            let good = digits && text != b"0";
            assert_eq!(is_channel_number(text), good, "{text:?}");
        }
    }
}

#[test]
fn worked_values_in_files_and_sheets() {
    for (texts, good) in [(CHANNEL_NUMBERS, true), (NO_CHANNEL_NUMBERS, false)] {
        for text in texts {
            for order in [Order::Low, Order::High] {
                let (string, one) = (channel(text), channel("1"));
                let refused_at = |k: usize| (!good).then_some(k);
                judged(order, &[&[&string]], refused_at(0));
                judged(order, &[&[&string], &[&one]], refused_at(0));
                judged(order, &[&[&one], &[&one], &[&string]], refused_at(2));
            }
            // The sheet's line, in the first addition and in a later one.
            let sheet = format!("CHANNEL_NUMBER\t{text}\n");
            for earlier in [false, true] {
                let mut buffer = vec![0; 400];
                let mut length = start(&mut buffer, 1, 3, b"").expect("room");
                if earlier {
                    let one = b"CHANNEL_NUMBER\t1\n";
                    length = add_integers(&mut buffer, length, one, 1, &[7]).expect("room");
                }
                let before = buffer.clone();
                let added = add_bits(&mut buffer, length, sheet.as_bytes(), 5, &[7]);
                match good {
                    true => assert!(added.is_ok(), "{text}"),
                    false => assert_eq!(added, Err(refusal(35, -1, 0)), "{text}"),
                }
                assert!(good || buffer == before);
            }
        }
    }
}

/// "if one trace block has it, all must"
#[test]
fn all_traces_or_none() {
    let (one, two) = (channel("1"), channel("2"));
    let with: &[&[u8]] = &[&one];
    let other: &[&[u8]] = &[&two];
    let none: &[&[u8]] = &[b"STACK 1"];
    for order in [Order::Low, Order::High] {
        judged(order, &[none, none, none], None);
        judged(order, &[with, other, with], None);
        judged(order, &[with, other, none], Some(2));
        judged(order, &[with, none, other], Some(1));
        judged(order, &[none, with, other], Some(1));
        judged(order, &[none, none, with], Some(2));
    }
    // "three traces of twelve"
    let mut twelve = [none; 12];
    for k in [4, 7, 11] {
        twelve[k] = with;
    }
    judged(Order::Low, &twelve, Some(4));
    twelve[0] = with;
    judged(Order::Low, &twelve, Some(1));
}

/// Document 02, §1's repeats stand beside it, and its neighbours are other keywords.
#[test]
fn other_strings_beside_it() {
    let one = channel("1");
    let with: &[&[u8]] = &[
        b"CHANNEL_NUMBE 0",
        &one,
        b"CHANNEL_NUMBERS x",
        b"RECEIVER_GEOMETRY -1",
        b"RECEIVER_GEOMETRY 1",
        b"SOURCE_GEOMETRY 0",
        b"SOURCE_GEOMETRY 0",
        b"NOTE CHANNEL_NUMBER 0",
    ];
    let without: &[&[u8]] = &[with[0], with[2], with[3], with[4], with[7]];
    judged(Order::Low, &[with, with], None);
    judged(Order::Low, &[without, without], None);
    judged(Order::Low, &[with, without], Some(1));
    judged(Order::High, &[without, with], Some(1));
}

/// The value is what follows the separators; blanks at its end are its own.
#[test]
fn blanks_around_the_value() {
    let number = |string: &[u8]| {
        let strings = [string];
        let bytes = plain_file(Order::Low, &[], &[PlainTrace::of_strings(&strings)]);
        number_of(&check(&bytes, bytes.len()))
    };
    assert_eq!(number(b"CHANNEL_NUMBER  \t7"), 0);
    assert_eq!(number(b"CHANNEL_NUMBER 7\t"), 34);
    assert_eq!(number(b"CHANNEL_NUMBER "), 34);
    assert_eq!(number(b"CHANNEL_NUMBER"), 34);
}

/// The rule speaks of trace blocks: the file's own string is not judged, by either call.
#[test]
fn the_files_own_string_is_free() {
    for own in [
        &b"CHANNEL_NUMBER x"[..],
        b"CHANNEL_NUMBER",
        b"CHANNEL_NUMBER 7",
    ] {
        for strings in [&[][..], &[&b"CHANNEL_NUMBER 1"[..]]] {
            let traces = [PlainTrace::of_strings(strings); 2];
            let bytes = plain_file(Order::Low, &[own], &traces);
            assert_eq!(number_of(&check(&bytes, bytes.len())), 0);
        }
    }
    let mut buffer = vec![0; 300];
    for sheet in [&b"CHANNEL_NUMBER\tx\n"[..], b"CHANNEL_NUMBER\t0\n"] {
        let length = start(&mut buffer, 0, 2, sheet).expect("a start takes any value");
        // and does not bind the traces
        for line in [&b""[..], b"CHANNEL_NUMBER\t3\n"] {
            let mut buffer = buffer.clone();
            let length = add_integers(&mut buffer, length, line, 1, &[1]).expect("free to choose");
            assert_eq!(number_of(&check(&buffer, length)), 0);
        }
    }
}

/// 34 comes behind the strings' rows of its own trace, and before the next trace's rows.
#[test]
fn row_34_in_its_order() {
    let (zero, one) = (channel("0"), channel("1"));
    // 17 of a later string of the same trace first.
    let traces = [&[&zero[..], b"STACK 1", b"DELAY 0"][..]];
    let bytes = file_of_texts(Order::Low, &traces);
    let at = pointer(&bytes, Order::Low, 0) + 32 + zero.len() + 3 + b"STACK 1".len() + 3;
    assert_eq!(check(&bytes, bytes.len()), Err(refusal(17, 0, at)));
    // 16 too, and twice the keyword is 17.
    let bytes = file_of_texts(Order::Low, &[&[&zero, b"stack 1"]]);
    assert_eq!(number_of(&check(&bytes, bytes.len())), 16);
    let bytes = file_of_texts(Order::Low, &[&[&one, &one]]);
    assert_eq!(number_of(&check(&bytes, bytes.len())), 17);
    // Trace 1's 34 before trace 2's pointer; trace 1's own mark before its 34.
    let whole = file_of_texts(Order::High, &[&[&one], &[&zero], &[&one]]);
    let p = pointer(&whole, Order::High, 1);
    let mut bytes = whole.clone();
    bytes[32 + 8 + 3] += 1;
    assert_eq!(check(&bytes, bytes.len()), Err(refusal(34, 1, p + 32)));
    bytes[p] = 0;
    assert_eq!(check(&bytes, bytes.len()), Err(refusal(9, 1, p)));
    // The file's strings come before all traces.
    let mut bytes = whole.clone();
    bytes[32 + 12 + 2] = b'u';
    assert_eq!(check(&bytes, bytes.len()), Err(refusal(16, -1, 44)));
}

/// Every question checks the whole file first: 34 before 18, 33 and 32.
#[test]
fn row_34_before_a_questions_own() {
    let one = channel("1");
    let bytes = file_of_texts(Order::Low, &[&[&one], &[]]);
    let p = pointer(&bytes, Order::Low, 1);
    let no = refusal(34, 1, p + 32);
    let length = bytes.len();
    assert_eq!(file_block(&bytes, length).err(), Some(no));
    assert_eq!(trace_block(&bytes, length, 9).err(), Some(no));
    assert_eq!(string_count(&bytes, length, -1), Err(no));
    assert_eq!(keyword(&bytes, length, 0, b"CHANNEL_NUMBER"), Err(no));
    assert_eq!(keyword_value(&bytes, length, 0, b"CHANNEL_NUMBER"), 0..0);
    let answer = samples_as_integers(&bytes, length, 0, &mut [7; 3]);
    assert_eq!(answer, Err(no));
    let listed = format!("R\t34\t1\t{}\n", p + 32);
    assert_eq!(listing(&bytes), listed.as_bytes());
}

/// 35 comes behind 24 to 27 and before 28 to 30.
#[test]
fn row_35_in_its_order() {
    let no = |number, place| Err(refusal(number, -1, place));
    let mut buffer = vec![0; 300_000];
    let length = start(&mut buffer, 0, 2, b"").expect("room");
    let one = b"CHANNEL_NUMBER\t1\n";
    let length = add_integers(&mut buffer, length, one, 1, &[1]).expect("room");
    let mut add = |sheet: &[u8], code, room: usize| {
        let row = [1 << 30; 3];
        add_integers(&mut buffer[..room], length, sheet, code, &row)
    };
    // Missing, and bad, before 28, 29 and 30.
    let zero = b"CHANNEL_NUMBER\t0\n";
    for sheet in [&b""[..], b"STACK\t1\n", zero] {
        for (code, room) in [(9, 200_000), (1, 200_000), (2, length)] {
            assert_eq!(add(sheet, code, room), no(35, 0));
        }
    }
    assert_eq!(add(one, 3, length), no(28, 0));
    assert_eq!(add(one, 1, length), no(29, 0));
    assert_eq!(add(one, 2, length), no(30, 0));
    // 25 and 26 of a later line first, and 27.
    assert_eq!(add(b"CHANNEL_NUMBER\t0\nSTACK 1\n", 2, length), no(25, 17));
    assert_eq!(add(b"CHANNEL_NUMBER\t0\nA\t1\n", 2, length), no(26, 17));
    let large = [b"A\t", &vec![b'x'; 65_500][..], b"\nCHANNEL_NUMBER\t0\n"].concat();
    assert_eq!(add(&large, 9, length), no(27, 0));
    assert_eq!(add(&large[..65_503], 9, length), no(27, 0));
    // 24, and the file's own check, before them all.
    let length = add_integers(&mut buffer, length, one, 1, &[1]).expect("room");
    let full = add_integers(&mut buffer, length, zero, 9, &[1]);
    assert_eq!(full, no(24, 0));
    let p = pointer(&buffer, Order::Low, 1);
    buffer[p + 32 + 2 + one.len() - 2] = b'0';
    let broken = add_integers(&mut buffer, length, b"", 9, &[1]);
    assert_eq!(broken, Err(refusal(34, 1, p + 32)));
}

/// "the first addition is free to choose", and binds those that come.
#[test]
fn the_first_addition_chooses() {
    let (with, without) = (&b"CHANNEL_NUMBER\t12\n"[..], &b"STACK\t1\n"[..]);
    for (first, other) in [(with, without), (without, with)] {
        let mut buffer = vec![0; 600];
        let mut length = start(&mut buffer, 0, 4, b"").expect("room");
        length = add_integers(&mut buffer, length, first, 1, &[1]).expect("free");
        for _ in 0..2 {
            let before = buffer.clone();
            let refused = add_integers(&mut buffer, length, other, 1, &[1]);
            assert_eq!(refused, Err(refusal(35, -1, 0)));
            assert_eq!(buffer, before);
            length = add_integers(&mut buffer, length, first, 1, &[1]).expect("as the first");
        }
        // The file that such a list defines, and none for the other.
        let trace = |sheet: &[u8]| TraceGiven {
            sheet: sheet.to_vec(),
            code: 1,
            row: Row::Integers(vec![1]),
        };
        let list = [first; 3].map(trace);
        assert_eq!(file_of(0, 4, b"", &list).as_deref(), Ok(&buffer[..length]));
        let mixed = [first, first, other].map(trace);
        assert_eq!(file_of(0, 4, b"", &mixed), Err(refusal(35, -1, 0)));
    }
    // Two traces may have the same number: the rule asks for one, not for another one.
    let one = channel("1");
    judged(Order::Low, &[&[&one], &[&one]], None);
}

// ---- what the generator reaches

fn repeats(area: &AreaModel) -> bool {
    let geometry = |s: &&generate::model::StringModel| s.keyword.ends_with(b"_GEOMETRY");
    let keywords: Vec<&[u8]> = area
        .strings
        .iter()
        .filter(geometry)
        .map(|s| &s.keyword[..])
        .collect();
    keywords.windows(2).any(|pair| pair[0] == pair[1])
}

/// Files with them in all traces and in none are accepted as often, each with and without
/// §1's repeats, with one trace and with several.
#[test]
fn files_with_and_without_them_are_accepted() {
    let mut rng = Rng::new(71);
    let mut counts = std::collections::BTreeMap::new();
    for _ in 0..8000 {
        let model = Model::random(&mut rng);
        let laid = model.lay();
        assert_eq!(number_of(&check(&laid.buffer, laid.length)), 0);
        let has = model.traces.iter().filter(|t| t.area.channel().is_some());
        let has = has.count();
        assert!(has == 0 || has == model.traces.len());
        let several = model.traces.len() > 1;
        let repeated = model.traces.iter().any(|t| repeats(&t.area));
        let own = model.area.channel().is_some();
        *counts.entry((has > 0, several, repeated, own)).or_insert(0) += 1;
    }
    assert_eq!(counts.len(), 16, "{counts:?}");
    assert!(counts.values().all(|&count| count > 20), "{counts:?}");
}

/// Every way of row 34 is refused by it, in the first trace and in later ones, and some of
/// its files have §1's repeats.
#[test]
fn row_34_is_reached_in_every_way() {
    let mut rng = Rng::new(72);
    for way in WAYS.iter().filter(|way| way.number == 34) {
        let (mut first, mut later, mut repeated) = (0, 0, 0);
        for _ in 0..200 {
            let case = damaged(&mut rng, way);
            assert_eq!(check(&case.buffer, case.length).err(), Some(case.expected));
            match case.expected.part {
                0 => first += 1,
                _ => later += 1,
            }
            let twice = b"RECEIVER_GEOMETRY".len();
            let found = case
                .buffer
                .windows(twice)
                .filter(|w| w == b"RECEIVER_GEOMETRY");
            repeated += usize::from(found.count() > 1);
        }
        // Which of two traces is the other one is told by the later.
        let of_all = way.name.contains("trace");
        assert!(later > 20 && (of_all || first > 20), "{}", way.name);
        assert!(repeated > 20, "{}", way.name);
    }
}

/// Additions meet 35 for each of its reasons, and are accepted with a channel number and
/// without one, as the first trace and as a later one.
#[test]
fn additions_reach_row_35_and_acceptance() {
    let mut rng = Rng::new(73);
    let mut counts = std::collections::BTreeMap::new();
    for _ in 0..6000 {
        let case = addition_case(&mut rng);
        let number = number_of(&case.expected);
        if ![0, 35].contains(&number) {
            continue;
        }
        let file = check_for_addition(&case.buffer, case.length).expect("a file");
        let first = file.traces.first();
        let has = |t: &Trace| {
            let keywords = t.strings.iter().map(|s| &case.buffer[s.keyword.clone()]);
            keywords
                .into_iter()
                .any(|keyword| keyword == CHANNEL_NUMBER)
        };
        let lines = case.sheet.split(|&c| c == b'\n');
        let line = lines
            .into_iter()
            .find_map(|l| l.strip_prefix(b"CHANNEL_NUMBER\t"));
        let value = line.map(is_channel_number);
        *counts.entry((number, first.map(has), value)).or_insert(0) += 1;
    }
    let expected = [
        // a first trace chooses
        (0, None, None),
        (0, None, Some(true)),
        // later ones are as the first
        (0, Some(false), None),
        (0, Some(true), Some(true)),
        // bad, missing, one too many
        (35, None, Some(false)),
        (35, Some(false), Some(false)),
        (35, Some(false), Some(true)),
        (35, Some(true), None),
        (35, Some(true), Some(false)),
    ];
    assert!(counts.keys().eq(&expected), "{counts:?}");
    assert!(counts.values().all(|&count| count > 50), "{counts:?}");
}

/// The values that the generator calls good or bad are so by the reader, and by every rule
/// of their own.
#[test]
fn generated_values() {
    let mut rng = Rng::new(74);
    let mut reasons = std::collections::BTreeMap::new();
    for _ in 0..4000 {
        let good = good_channel(&mut rng);
        assert!(is_channel_number(&good), "{}", good.escape_ascii());
        let bad = bad_channel(&mut rng);
        assert!(!is_channel_number(&bad), "{}", bad.escape_ascii());
        let reason = match number(&bad) {
            Err(refusal) => format!("row {}", refusal.number),
            Ok(n) if n.minus => "a minus".into(),
            Ok(_) if bad.contains(&b'E') => "E".into(),
            Ok(_) if bad.contains(&b'.') => "a point".into(),
            Ok(n) if n.coefficient == 0 => "0".into(),
            Ok(_) => "over 32,767".into(),
        };
        *reasons.entry(reason).or_insert(0) += 1;
    }
    assert_eq!(reasons.len(), 7, "{reasons:?}");
    assert!(reasons.values().all(|&count| count > 50), "{reasons:?}");
}
