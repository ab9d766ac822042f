//! Document 02, §4: how many digits stood after the point, and numbers written back as
//! text. By hand, and over generated texts: what was read and is written reads back as the
//! same answer.

mod common;

use common::refusal;
use seg2_reference::generate::{forged_number, number_case, number_edges, Rng};
use seg2_reference::worked::{DECIMALS, LONGEST_TEXT, NOT_WRITTEN, PAPER_NUMBERS};
use seg2_reference::*;
use std::collections::BTreeMap;

/// Something that no text has, in each byte of a room.
const PAINT: u8 = 0xEE;

/// The text that a number is written as in a room of so many bytes, or its refusal. The
/// bytes behind the text stay, and after a refusal all of them.
fn written_in(room: usize, number: Number) -> Result<String, Refusal> {
    let mut bytes = vec![PAINT; room];
    let answer = write_number(&mut bytes, number);
    let length = answer.unwrap_or(0);
    assert!(bytes[length..].iter().all(|&b| b == PAINT), "{number:?}");
    let text = String::from_utf8(bytes[..length].to_vec());
    answer.map(|_| text.expect("ASCII"))
}

/// The same with room enough for any.
fn written(number: Number) -> Result<String, Refusal> {
    written_in(30, number)
}

/// What a text is written back as.
fn again(text: &str) -> String {
    let number = number(text.as_bytes()).expect("a number");
    written(number).expect("a text")
}

#[test]
fn decimals_of_texts() {
    let decimals = |text: &str| number(text.as_bytes()).map(|number| number.decimals);
    for (text, count) in [
        ("0.250", 3),
        ("12", 0),
        ("2.50E-3", 2),
        ("-34.6", 1),
        ("12E3", 0),
        ("0.0", 1),
        ("-0.000E5", 3),
        ("1.00000000000000000", 17),
    ] {
        assert_eq!(decimals(text), Ok(count), "{text}");
    }
    assert_eq!(decimals("12."), Err(refusal(20, -1, 0)));
    assert_eq!(decimals("1.000000000000000000"), Err(refusal(21, -1, 0)));
}

#[test]
fn decimals_of_locations() {
    let decimals = |text: &str| location(text.as_bytes()).map(|location| location.decimals);
    for (text, counts) in [
        ("0.250", [3, 0, 0]),
        ("12", [0, 0, 0]),
        ("1.0 2 3.250", [1, 0, 3]),
        ("\t1  2.50E-3\t-0.00 ", [0, 2, 2]),
    ] {
        assert_eq!(decimals(text), Ok(counts), "{text}");
    }
    assert_eq!(decimals("1.0 2.00"), Err(refusal(23, -1, 0)));
    assert_eq!(decimals("1.0 2.00 x"), Err(refusal(20, -1, 9)));
}

/// Each of the table is written as it stands, and reads as it was written.
#[test]
fn worked_texts() {
    for &(text, expected) in DECIMALS.iter().chain(PAPER_NUMBERS) {
        assert_eq!(number(text.as_bytes()), Ok(expected), "{text}");
        assert_eq!(written(expected), Ok(text.to_string()));
    }
}

#[test]
fn a_text_that_is_not_as_it_is_written() {
    for (text, expected) in [
        ("-0", "0"),
        ("-0.00E-7", "0.00E-7"),
        ("007", "7"),
        ("00.50", "0.50"),
        ("-010.0", "-10.0"),
        ("1E0", "1"),
        ("1E-0", "1"),
        ("1E05", "1E5"),
        ("2.5E-07", "2.5E-7"),
        ("000000000000000000", "0"),
        ("0E99", "0E99"),
    ] {
        assert_eq!(again(text), expected);
        assert_eq!(again(expected), expected);
        assert_eq!(number(text.as_bytes()), number(expected.as_bytes()));
    }
}

#[test]
fn refusals_however_much_room_there_is() {
    for &(number, row) in NOT_WRITTEN {
        for room in [0, 1, 24, 30] {
            let answer = written_in(room, number);
            assert_eq!(answer, Err(refusal(row, -1, 0)), "{number:?}");
        }
    }
}

/// One more and it is refused: digits before E, and E's number on either side of 0.
#[test]
fn the_last_that_are_written() {
    let forged = |coefficient, power, decimals| {
        written(Number {
            minus: false,
            coefficient,
            power,
            decimals,
        })
        .map_err(|refusal| refusal.number)
    };
    let most = 999_999_999_999_999_999;
    assert_eq!(forged(most, 0, 0), Ok("999999999999999999".into()));
    assert_eq!(forged(most + 1, 0, 0), Err(21));
    assert_eq!(forged(most, -17, 17), Ok("9.99999999999999999".into()));
    assert_eq!(forged(most + 1, -17, 17), Err(21));
    // The zeros in front count: 17 decimals and one digit before the point are 18.
    assert_eq!(forged(0, -17, 17), Ok("0.00000000000000000".into()));
    assert_eq!(forged(0, -18, 18), Err(21));
    assert_eq!(forged(7, 99, 0), Ok("7E99".into()));
    assert_eq!(forged(7, 100, 0), Err(21));
    assert_eq!(forged(7, -99, 0), Ok("7E-99".into()));
    assert_eq!(forged(7, -100, 0), Err(21));
    assert_eq!(forged(75, 98, 1), Ok("7.5E99".into()));
    assert_eq!(forged(75, 99, 1), Err(21));
    assert_eq!(forged(75, -100, 1), Ok("7.5E-99".into()));
    assert_eq!(forged(75, -101, 1), Err(21));
    // The sum is exact: in 32 bits it would be small.
    assert_eq!(forged(7, i32::MIN, 1 << 31), Err(21));
    assert_eq!(forged(7, i32::MAX, 1), Err(21));
    assert_eq!(forged(7, 1, u32::MAX), Err(21));
}

/// "30 no room": as many bytes as the text has are room, one less is none.
#[test]
fn room() {
    for &(text, number) in DECIMALS {
        for room in 0..=30 {
            let expected = match room < text.len() {
                true => Err(refusal(30, -1, 0)),
                false => Ok(text.to_string()),
            };
            assert_eq!(written_in(room, number), expected, "{room}");
        }
    }
    // So 24 bytes are the least that every text fits.
    assert_eq!(LONGEST_TEXT.len(), 24);
}

/// Every text that is a number: read, written and read again it is the same answer, in the
/// form that its making tells, and from then on the text stays.
#[test]
fn generated_texts_read_back() {
    let mut rng = Rng::new(23);
    let (mut numbers, mut longest) = (0, 0);
    for _ in 0..40_000 {
        let case = number_case(&mut rng);
        let Ok(number) = number(&case.text) else {
            assert_eq!(case.written, None);
            continue;
        };
        let text = written_in(24, number).expect("24 bytes are enough");
        assert_eq!(Some(text.as_bytes()), case.written.as_deref());
        assert_eq!(seg2_reference::number(text.as_bytes()), Ok(number));
        assert_eq!(again(&text), text);
        numbers += 1;
        longest = longest.max(text.len());
    }
    assert!(numbers > 10_000, "{numbers}");
    assert_eq!(longest, 24);
}

/// What is written at all reads back, forged or not; the edges meet every row.
#[test]
fn forged_numbers_read_back() {
    let mut rng = Rng::new(24);
    let forged = (0..40_000).map(|_| forged_number(&mut rng));
    let mut met = BTreeMap::new();
    for given in number_edges().into_iter().chain(forged) {
        let answer = written(given);
        let row = answer.as_ref().err().map_or(0, |refusal| refusal.number);
        *met.entry(row).or_insert(0) += 1;
        if let Ok(text) = answer {
            assert_eq!(number(text.as_bytes()), Ok(given), "{text}");
            assert!(text.len() <= 24, "{text}");
            assert_eq!(written_in(text.len(), given), Ok(text.clone()));
            let less = written_in(text.len() - 1, given);
            assert_eq!(less, Err(refusal(30, -1, 0)));
        }
    }
    assert!(met.keys().eq(&[0, 20, 21]), "{met:?}");
    assert!(met.values().all(|&times| times > 1000), "{met:?}");
}
