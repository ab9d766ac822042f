//! Document 01's worked values, through the archive's exported functions.

use seg2_differential::case::Given;
use seg2_differential::expected::number as number_answer;
use seg2_differential::growing::add;
use seg2_differential::{Answer, Archive, Call, Pair};
use seg2_reference::worked::{
    example, CODE_3_KEPT, CODE_3_TOO_LARGE, EXAMPLE_SAMPLES, EXAMPLE_SHEET, EXAMPLE_TRACE_SHEET,
    NO_DOUBLE, NO_LOCATION, NUMBERS,
};
use seg2_reference::Row;

/// The listing program's example, as the two writers make it.
#[test]
fn the_file_of_108_bytes() {
    let mut pair = Pair::new(&Archive, 1, &[7; 120]);
    pair.lend_sheet(EXAMPLE_SHEET);
    let start = Call::Start { order: 0, slots: 1 };
    assert_eq!(pair.ask(0, start), Ok(Answer::good([56])));
    let given = Given {
        sheet: EXAMPLE_TRACE_SHEET.to_vec(),
        code: 1,
        row: Row::Integers(EXAMPLE_SAMPLES.to_vec()),
    };
    let (answer, _) = add(&mut pair, 56, &given).expect("alike");
    assert_eq!(answer, Answer::good([108]));
    assert_eq!(pair.memory().buffer[..108], example());
    let file_block = pair.ask(108, Call::FileBlock);
    assert_eq!(file_block, Ok(Answer::good([0, 4, 1, 1, 1])));
    let trace_block = pair.ask(108, Call::TraceBlock { trace: 0 });
    assert_eq!(trace_block, Ok(Answer::good([56, 44, 8, 3, 1])));
    pair.lend_integers(&[7; 3]);
    let integers = pair.ask(108, Call::Integers { trace: 0 });
    assert_eq!(integers, Ok(Answer::good([])));
    assert_eq!(pair.memory().integers, EXAMPLE_SAMPLES);
    let value = |pair: &mut Pair, part, key: &[u8]| {
        pair.lend_key(key);
        let [start, size, ..] = pair.ask(108, Call::Value { part }).expect("alike").values;
        pair.memory().buffer[start as usize..(start + size) as usize].to_vec()
    };
    assert_eq!(value(&mut pair, -1, b"UNITS"), b"METERS");
    assert_eq!(value(&mut pair, 0, b"STACK"), b"1");
    assert_eq!(value(&mut pair, 0, b"UNITS"), b"");
    assert_eq!(pair.memory().buffer[108..], [7; 12]);
}

/// A file with one trace, whose sheet and integers are given; its length.
fn file_with<'a>(sheet: &[u8], code: u32, row: &[i32]) -> (Pair<'a>, Answer) {
    let mut pair = Pair::new(&Archive, 2, &[7; 4_000]);
    let start = Call::Start { order: 1, slots: 1 };
    let length = pair.ask(0, start).expect("alike").values[0] as usize;
    let given = Given {
        sheet: sheet.to_vec(),
        code,
        row: Row::Integers(row.to_vec()),
    };
    let (answer, _) = add(&mut pair, length, &given).expect("alike");
    (pair, answer)
}

/// Document 02, §1: "A crew with six phones per group writes RECEIVER_GEOMETRY six times
/// in one trace block". A question answers the first; count and index have them all.
#[test]
fn six_receivers_in_one_group() {
    let mut pair = Pair::new(&Archive, 3, &[7; 250]);
    pair.lend_sheet(EXAMPLE_SHEET);
    let start = Call::Start { order: 0, slots: 1 };
    assert_eq!(pair.ask(0, start), Ok(Answer::good([56])));
    let phones = ["-5", "-3", "-1", "1", "3", "5"];
    let lines: Vec<String> = phones
        .iter()
        .map(|x| format!("RECEIVER_GEOMETRY\t{x}\n"))
        .collect();
    let given = Given {
        sheet: lines.concat().into_bytes(),
        code: 1,
        row: Row::Integers(EXAMPLE_SAMPLES.to_vec()),
    };
    let (answer, _) = add(&mut pair, 56, &given).expect("alike");
    assert_eq!(answer, Answer::good([236]));
    assert_eq!(pair.ask(236, Call::Check), Ok(Answer::good([])));
    let count = pair.ask(236, Call::StringCount { part: 0 });
    assert_eq!(count, Ok(Answer::good([6])));
    let mut starts = Vec::new();
    for (index, phone) in phones.iter().enumerate() {
        let string = pair
            .ask(236, Call::String { part: 0, index })
            .expect("alike");
        let [found, key, key_size, value, size, ..] = string.values.map(|n| n as usize);
        let buffer = &pair.memory().buffer;
        assert_eq!(found, 1);
        assert_eq!(&buffer[key..key + key_size], b"RECEIVER_GEOMETRY");
        assert_eq!(&buffer[value..value + size], phone.as_bytes());
        starts.push(value as u64);
    }
    pair.lend_key(b"RECEIVER_GEOMETRY");
    let value = pair.ask(236, Call::Value { part: 0 });
    assert_eq!(value, Ok(Answer::good([starts[0], 2])));
    let number = pair.ask(236, Call::Number { part: 0 });
    assert_eq!(number, Ok(Answer::good([1, 0, 5, 0])));
    let x = (-5.0_f64).to_bits();
    assert_eq!(
        pair.ask(236, Call::Double { part: 0 }),
        Ok(Answer::good([x]))
    );
    let location = pair.ask(236, Call::Location { part: 0 });
    assert_eq!(location, Ok(Answer::good([1, x, 0, 0])));
    // One that does not run is refused at its line, and changes nothing.
    for (sheet, place) in [
        (
            &b"RECEIVER_GEOMETRY\t1\nSHOT\t1\nRECEIVER_GEOMETRY\t2\n"[..],
            27,
        ),
        (b"RECEIVER_LOCATION\t1\nRECEIVER_LOCATION\t2\n", 20),
    ] {
        pair.lend_sheet(sheet);
        assert_eq!(pair.ask(0, start), Ok(Answer::refused(26, -1, place)));
    }
}

#[test]
fn numbers() {
    let asked = |text: &str| {
        let sheet = format!("DELAY\t{text}\n");
        let (mut pair, length) = file_with(sheet.as_bytes(), 1, &[]);
        pair.lend_key(b"DELAY");
        let length = length.values[0] as usize;
        let [number, double, location] = [
            Call::Number { part: 0 },
            Call::Double { part: 0 },
            Call::Location { part: 0 },
        ]
        .map(|call| pair.ask(length, call).expect("alike"));
        (number, double, location)
    };
    for &(text, number) in NUMBERS {
        let expected = match number {
            Ok(number) => number_answer(number),
            Err(row) => Answer::refused(row.into(), -1, 0),
        };
        assert_eq!(asked(text).0, expected, "{text}");
    }
    assert_eq!(asked("-34.6").1, Answer::good([(-34.6_f64).to_bits()]));
    assert_eq!(asked(NO_DOUBLE).1, Answer::refused(22, -1, 0));
    assert_eq!(asked(NO_LOCATION).2, Answer::refused(23, -1, 0));
    assert_eq!(asked("1 2 x").2, Answer::refused(20, -1, 4));
    let [x, y, z] = [1.0_f64, -2.5, 3.0].map(f64::to_bits);
    let location = asked("1 -2.5  3.00").2;
    assert_eq!(location, Answer::good([3, x, y, z, 0, 1, 2]));
    // An absent keyword: no number, no location.
    let (mut pair, length) = file_with(b"", 1, &[]);
    let length = length.values[0] as usize;
    pair.lend_key(b"DELAY");
    for (call, number) in [
        (Call::Number { part: 0 }, 20),
        (Call::Double { part: 0 }, 20),
        (Call::Location { part: 0 }, 23),
    ] {
        assert_eq!(pair.ask(length, call), Ok(Answer::refused(number, -1, 0)));
    }
}

#[test]
fn code_3() {
    let read = |samples: [i32; 4]| {
        let (mut pair, answer) = file_with(b"", 3, &samples);
        if answer.number != 0 {
            return Err(answer);
        }
        pair.lend_integers(&[7; 4]);
        let length = answer.values[0] as usize;
        let asked = pair.ask(length, Call::Integers { trace: 0 });
        assert_eq!(asked, Ok(Answer::good([])));
        Ok(pair.memory().integers.clone())
    };
    let [a, b, c] = CODE_3_KEPT;
    assert_eq!(read([a.0, b.0, c.0, 0]), Ok(vec![a.1, b.1, c.1, 0]));
    for sample in CODE_3_TOO_LARGE {
        let over = read([0, 0, sample, 0]);
        assert_eq!(over, Err(Answer::refused(29, -1, 2)));
    }
}
