//! Numbers, doubles and locations as the face reads them out of a file: document 01's
//! worked values, the paper's list, and generated texts beside the reference. Each text
//! is the value of a keyword, of the file and of a trace. Each is read as a text by itself
//! too, and a number is written back with its own decimals (document 02, §4).

use seg2::{calls, raw};
use seg2_reference::generate::{location_case, number_case, plain_file, PlainTrace, Rng};
use seg2_reference::strings::is_separator;
use seg2_reference::worked::{
    DECIMALS, NOT_WRITTEN, NO_DOUBLE, NO_LOCATION, NUMBERS, PAPER_DOUBLES, PAPER_NUMBERS,
};
use seg2_reference::{self as reference, Location, Number, Order, Refusal};
use std::collections::{BTreeMap, BTreeSet};

/// What a keyword's value is as a number, a double and a location.
struct Told {
    number: raw::Number,
    double: (u32, i32, usize, u64),
    location: (u32, i32, usize, u32, [u64; 3], [u32; 3]),
}

/// A file in which a keyword of the file's own and one of its only trace have the text
/// behind a space.
fn file(text: &[u8]) -> Vec<u8> {
    let string = [b"V ", text].concat();
    let trace = PlainTrace::of_strings(&[]);
    let strings: &[&[u8]] = &[&string];
    plain_file(Order::Low, strings, &[PlainTrace { strings, ..trace }])
}

/// A text that no file holds: a byte of it is none of a value's.
fn is_forbidden(text: &[u8]) -> bool {
    !text.iter().all(|c| matches!(c, 9 | 32..=126))
}

/// How many separators a text begins with: in a file they belong to no value.
fn blanks(text: &[u8]) -> usize {
    text.iter().take_while(|&&c| is_separator(c)).count()
}

/// The three answers to a keyword of a part.
fn asked(bytes: &[u8], part: i32) -> Told {
    let n = bytes.len();
    answers(
        calls::number(bytes, n, part, b"V"),
        calls::double(bytes, n, part, b"V"),
        calls::location(bytes, n, part, b"V"),
    )
}

/// The same of the only trace, without a check of the file.
fn asked_quickly(bytes: &[u8]) -> Told {
    let n = bytes.len();
    answers(
        calls::quick_number(bytes, n, 0, b"V"),
        calls::quick_double(bytes, n, 0, b"V"),
        calls::quick_location(bytes, n, 0, b"V"),
    )
}

/// Doubles are compared by their bits, so that -0 is not 0.
fn answers(number: raw::Number, d: raw::Double, l: raw::Location) -> Told {
    Told {
        number,
        double: (d.number, d.part, d.place, d.value.to_bits()),
        location: (
            l.number,
            l.part,
            l.place,
            l.count,
            [l.x, l.y, l.z].map(f64::to_bits),
            [l.x_decimals, l.y_decimals, l.z_decimals],
        ),
    }
}

/// Number, part and place of a refusal.
fn told(refusal: Refusal) -> (u32, i32, usize) {
    let Refusal {
        number,
        part,
        place,
    } = refusal;
    (u32::from(number), part as i32, place as usize)
}

/// A number answer of the reference in the face's form. After a refusal all else is 0.
fn number_told(answer: Result<Number, Refusal>) -> raw::Number {
    let (refused, n) = match answer {
        Ok(number) => ((0, -1, 0), Some(number)),
        Err(refusal) => (told(refusal), None),
    };
    raw::Number {
        number: refused.0,
        part: refused.1,
        place: refused.2,
        minus: n.map_or(0, |n| n.minus.into()),
        power: n.map_or(0, |n| n.power),
        coefficient: n.map_or(0, |n| n.coefficient),
        decimals: n.map_or(0, |n| n.decimals),
    }
}

/// The same of a value, by the reference. After a refusal all else is 0.
fn expected(
    number: Result<Number, Refusal>,
    double: Result<f64, Refusal>,
    location: Result<Location, Refusal>,
) -> Told {
    let double = match double {
        Ok(value) => (0, -1, 0, value.to_bits()),
        Err(refusal) => {
            let (number, part, place) = told(refusal);
            (number, part, place, 0)
        }
    };
    let location = match location {
        Ok(l) => {
            let values = [l.x, l.y, l.z].map(f64::to_bits);
            (0, -1, 0, l.count.into(), values, l.decimals)
        }
        Err(refusal) => {
            let (number, part, place) = told(refusal);
            (number, part, place, 0, [0; 3], [0; 3])
        }
    };
    Told {
        number: number_told(number),
        double,
        location,
    }
}

fn same(found: &Told, expected: &Told, text: &[u8]) {
    let shown = String::from_utf8_lossy(text);
    assert_eq!(found.number, expected.number, "{shown}");
    assert_eq!(found.double, expected.double, "{shown}");
    assert_eq!(found.location, expected.location, "{shown}");
}

/// What the face answers to a text as a value: the reference's answers to the bytes
/// behind the separators, in both parts. A text that no file holds is refused by 16, at
/// the string's own place, whatever is asked: the file's, which comes first, or by a quick
/// question the trace's.
fn agree(text: &[u8]) -> Told {
    let bytes = file(text);
    let value = &text[blanks(text)..];
    let or_refused = |refusal| match is_forbidden(text) {
        true => expected(Err(refusal), Err(refusal), Err(refusal)),
        false => expected(
            reference::number(value),
            reference::double(value),
            reference::location(value),
        ),
    };
    let checked = reference::check(&bytes, bytes.len());
    assert_eq!(checked.is_err(), is_forbidden(text));
    let expected = or_refused(Refusal::file(16, 36));
    for part in [-1, 0] {
        same(&asked(&bytes, part), &expected, text);
    }
    let pointer = u32::from_le_bytes(bytes[32..36].try_into().expect("4 bytes"));
    let in_trace = Refusal::new(16, 0, pointer as usize + 32);
    same(&asked_quickly(&bytes), &or_refused(in_trace), text);
    by_itself(text);
    asked(&bytes, -1)
}

/// The text read by itself, whatever its bytes: the reference's answer, and what is written
/// of it reads back as the same answer.
fn by_itself(text: &[u8]) {
    let shown = String::from_utf8_lossy(text);
    let read = calls::read_number(text);
    assert_eq!(read, number_told(reference::number(text)), "{shown}");
    if read.number == 0 {
        let mut room = [b'_'; 24];
        let length = written(&mut room, &read).expect("24 bytes are enough");
        assert_eq!(calls::read_number(&room[..length]), read, "{shown}");
        assert!(room[length..].iter().all(|&b| b == b'_'), "{shown}");
    }
}

/// The length of the text that a number answer is written as, or the row that refuses it.
fn written(room: &mut [u8], n: &raw::Number) -> Result<usize, u32> {
    let answer = calls::write_number(room, n.minus, n.coefficient, n.power, n.decimals);
    assert_eq!((answer.part, answer.place), (-1, 0));
    match answer.number {
        0 => Ok(answer.length),
        number => {
            assert_eq!(answer.length, 0);
            Err(number)
        }
    }
}

/// Sign, coefficient, power of ten and decimals, or the row and the place.
type Read = Result<(bool, u64, i32, u32), (u32, usize)>;

fn number_of(text: &[u8]) -> Read {
    let n = agree(text).number;
    match n.number {
        0 => Ok((n.minus != 0, n.coefficient, n.power, n.decimals)),
        number => Err((number, n.place)),
    }
}

fn fields(n: Number) -> (bool, u64, i32, u32) {
    (n.minus, n.coefficient, n.power, n.decimals)
}

#[test]
fn worked_values() {
    for &(text, number) in NUMBERS {
        let expected = number.map(fields).map_err(|row| (row.into(), 0));
        assert_eq!(number_of(text.as_bytes()), expected, "{text}");
    }
    let double = agree(NO_DOUBLE.as_bytes()).double;
    assert_eq!(double, (22, -1, 0, 0));
    let location = agree(NO_LOCATION.as_bytes()).location;
    assert_eq!(location, (23, -1, 0, 0, [0; 3], [0; 3]));
}

/// Document 02, §4: the decimals of a text, and the text that they are written as, in every
/// room; what is not written, with its row.
#[test]
fn worked_texts() {
    for &(text, number) in DECIMALS.iter().chain(PAPER_NUMBERS) {
        assert_eq!(number_of(text.as_bytes()), Ok(fields(number)), "{text}");
        let read = calls::read_number(text.as_bytes());
        for room in 0..=30 {
            let mut bytes = vec![b'_'; room];
            let expected = match room < text.len() {
                true => (Err(30), vec![b'_'; room]),
                false => {
                    let behind = vec![b'_'; room - text.len()];
                    (Ok(text.len()), [text.as_bytes(), &behind].concat())
                }
            };
            let answer = written(&mut bytes, &read);
            assert_eq!((answer, bytes), expected, "{text} in {room}");
        }
    }
    for &(number, row) in NOT_WRITTEN {
        let forged = number_told(Ok(number));
        // any minus that is not 0 is one
        for minus in [1, 2, u32::MAX].map(|minus| forged.minus * minus) {
            let mut bytes = [b'_'; 30];
            let answer = written(&mut bytes, &raw::Number { minus, ..forged });
            assert_eq!(answer, Err(row.into()), "{number:?}");
            assert_eq!(bytes, [b'_'; 30], "{number:?}");
        }
    }
}

/// "zero has sign plus"; "leading zeros counted"; the bounds of the double case.
#[test]
fn bounds() {
    assert_eq!(number_of(b"-0"), Ok((false, 0, 0, 0)));
    assert_eq!(number_of(b"-0.00E-99"), Ok((false, 0, -101, 2)));
    assert_eq!(number_of(b"000000000000000001"), Ok((false, 1, 0, 0)));
    assert_eq!(number_of(b"0000000000000000001"), Err((21, 0)));
    assert_eq!(number_of(b"1E100"), Err((21, 0)));
    let most = number_of(b"999999999999999999E99");
    assert_eq!(most, Ok((false, 999_999_999_999_999_999, 99, 0)));
    for text in [
        &b"9007199254740991"[..],
        b"9007199254740992",
        b"-9007199254740991E15",
        b"9007199254740991E-15",
        b"9007199254740991E16",
        b"0E-16",
        b"-0",
        b"",
        b"-",
    ] {
        agree(text);
    }
}

#[test]
fn the_papers_allowed_numbers() {
    for &(text, n) in PAPER_NUMBERS {
        assert_eq!(number_of(text.as_bytes()), Ok(fields(n)), "{text}");
    }
    for &(text, value) in PAPER_DOUBLES {
        let (number, _, _, bits) = agree(text.as_bytes()).double;
        assert_eq!((number, f64::from_bits(bits)), (0, value), "{text}");
    }
}

/// The places of figure C-2, and separators at either end: those at the front part
/// keyword and value, and the place counts from the value's start.
#[test]
fn locations() {
    let told = |text: &[u8]| {
        let (number, _, place, count, values, decimals) = agree(text).location;
        (number, place, count, values.map(f64::from_bits), decimals)
    };
    let good = |count: u32, values: [f64; 3], decimals: [u32; 3]| (0, 0, count, values, decimals);
    let refused = |number: u32, place: usize| (number, place, 0, [0.0; 3], [0; 3]);
    assert_eq!(
        told(b"120.5 0 0.25"),
        good(3, [120.5, 0.0, 0.25], [1, 0, 2])
    );
    assert_eq!(told(b"100.0"), good(1, [100.0, 0.0, 0.0], [1, 0, 0]));
    assert_eq!(
        told(b" \t-1.5\t \t2  3.000\t"),
        good(3, [-1.5, 2.0, 3.0], [1, 0, 3])
    );
    assert_eq!(told(b"1  x 3"), refused(20, 3));
    assert_eq!(told(b" 1 x 3"), refused(20, 2));
    assert_eq!(told(b"1\t2\t1234567890123456789"), refused(21, 4));
    assert_eq!(told(b"  1E16"), refused(22, 0));
    assert_eq!(told(b" \t "), refused(23, 0));
}

/// Generated texts, whose answers are known from their making, and the reference.
#[test]
fn generated_numbers() {
    let mut rng = Rng::new(41);
    let mut met = BTreeMap::new();
    for _ in 0..40_000 {
        let case = number_case(&mut rng);
        let found = agree(&case.text);
        // What no value is, as it begins with a separator or has a byte that no file has.
        if is_forbidden(&case.text) || blanks(&case.text) > 0 {
            continue;
        }
        let location = reference::location(&case.text);
        let made = expected(case.number, case.double, location);
        same(&found, &made, &case.text);
        *met.entry(case.row()).or_insert(0) += 1;
    }
    assert!(met.keys().eq(&[0, 20, 21, 22]), "{met:?}");
    assert!(met.values().all(|&times| times > 1000), "{met:?}");
}

#[test]
fn generated_locations() {
    let mut rng = Rng::new(42);
    let mut met = BTreeSet::new();
    for _ in 0..40_000 {
        let case = location_case(&mut rng);
        let found = agree(&case.text);
        if is_forbidden(&case.text) {
            continue;
        }
        // The place of 20 to 22 counts from the value's start; 23 has place 0.
        let first = blanks(&case.text);
        let moved = |refusal: Refusal| Refusal {
            place: refusal.place.saturating_sub(first as u64),
            ..refusal
        };
        let value = &case.text[first..];
        let (number, double) = (reference::number(value), reference::double(value));
        let made = expected(number, double, case.expected.map_err(moved));
        same(&found, &made, &case.text);
        met.insert(case.kind());
    }
    let kinds = [Ok(1), Ok(3), Err(20), Err(21), Err(22), Err(23)];
    assert_eq!(met, kinds.into());
}

/// Short texts of the bytes that the grammar knows, and any bytes at all: those that no
/// file holds are refused.
#[test]
fn any_text() {
    let mut rng = Rng::new(43);
    let mut refused = 0;
    for _ in 0..60_000 {
        let length = rng.between(0, 12);
        let text: Vec<u8> = (0..length)
            .map(|_| match rng.one_in(20) {
                true => rng.byte(),
                false => rng.pick(b"-.E0123456789 \t00E.-"),
            })
            .collect();
        refused += u32::from(agree(&text).number.number == 16);
    }
    assert!(refused > 1000, "{refused}");
}

/// Each byte alone and among digits: a file holds it in a value, or 16 refuses the file.
#[test]
fn every_byte() {
    for byte in 0..=255 {
        agree(&[byte]);
        agree(&[b'1', byte, b'2']);
        agree(&[b'1', b'2', byte]);
    }
}
