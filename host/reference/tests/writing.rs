//! Sheets, starts, additions, and the file that a list defines.

mod common;

use common::number_of;
use seg2_reference::generate::writing::row_for;
use seg2_reference::generate::*;
use seg2_reference::sheet::{sheet_strings, SheetString};
use seg2_reference::*;
use std::collections::BTreeSet;

#[test]
fn sheets() {
    let mut rng = Rng::new(31);
    let mut met = BTreeSet::new();
    for _ in 0..6000 {
        let case = sheet_case(&mut rng);
        let text = String::from_utf8_lossy(&case.sheet).into_owned();
        assert_eq!(sheet_strings(&case.sheet), case.expected, "{text:?}");
        met.insert(number_of(&case.expected));
    }
    assert_eq!(met, [0, 25, 26].into());
}

/// Answer and whole buffer after a start; bytes past the image stay.
#[test]
fn starts() {
    let mut rng = Rng::new(32);
    let mut met = BTreeSet::new();
    for _ in 0..3000 {
        let case = start_case(&mut rng);
        let mut buffer = case.buffer.clone();
        let answer = start(&mut buffer, case.order, case.slots, &case.sheet);
        assert_eq!(answer, case.expected);
        assert_eq!(buffer, case.after);
        met.insert(number_of(&answer));
        if let Ok(length) = answer {
            let file = check_for_addition(&buffer, length).expect("an image");
            assert_eq!((file.n, u64::from(file.m)), (0, 4 * case.slots));
            let strings = sheet_strings(&case.sheet).expect("good");
            strings_read_as_given(&file, &buffer, &file.strings, &strings);
            assert_eq!(check(&buffer, length), Err(Refusal::file(5, 6)));
        } else {
            assert_eq!(buffer, case.buffer);
        }
    }
    assert_eq!(met, [0, 25, 26, 27, 30, 31].into());
}

fn strings_read_as_given(file: &File, buffer: &[u8], found: &[StringPlace], given: &[SheetString]) {
    assert_eq!(found.len(), given.len());
    for (found, given) in found.iter().zip(given) {
        assert_eq!(buffer[found.keyword.clone()], given.keyword);
        let value = &buffer[found.value.clone()];
        if given.keyword == b"NOTE" {
            assert_eq!(note_lines(file, value), given.lines);
        } else {
            assert_eq!(value, given.lines[0]);
        }
    }
}

/// What was given is what is read; code 3 cuts low bits toward zero.
fn samples_read_as_given(buffer: &[u8], length: usize, k: i64, code: u8, row: &Row) {
    match row {
        Row::Integers(given) => {
            let mut read = vec![0; given.len()];
            assert_eq!(samples_as_integers(buffer, length, k, &mut read), Ok(()));
            if code == 3 {
                for (&given, &read) in given.iter().zip(&read) {
                    code_3_law(given, read);
                }
            } else {
                assert_eq!(&read, given);
            }
        }
        Row::Bits(given) => {
            let (mut read, mut classes) = (vec![0; given.len()], vec![0; given.len()]);
            let answer = samples_as_bits(buffer, length, k, &mut read, &mut classes);
            assert_eq!((answer, &read), (Ok(()), given));
            assert!(classes.iter().all(|&class| class <= 4));
        }
    }
}

/// "the value read differs by less than 2 to the exponent, and by nothing up to
/// 32,767", the exponent being the smallest.
fn code_3_law(given: i32, read: i32) {
    let magnitude = given.unsigned_abs();
    let exponent = (0..16).find(|&e| magnitude >> e <= 32_767);
    let exponent = exponent.expect("under 2^30");
    assert!(read.unsigned_abs() <= magnitude);
    assert!(magnitude - read.unsigned_abs() < 1 << exponent);
    assert!(magnitude > 32_767 || read == given);
    assert!(read == 0 || (read < 0) == (given < 0));
}

#[test]
fn additions_on_any_file() {
    let mut rng = Rng::new(33);
    let mut met = BTreeSet::new();
    for _ in 0..10_000 {
        let case = addition_case(&mut rng);
        let mut buffer = case.buffer.clone();
        let before = check_for_addition(&buffer, case.length);
        let answer = add(&mut buffer, case.length, &case.sheet, case.code, &case.row);
        assert_eq!(answer, case.expected);
        assert!(buffer == case.after);
        met.insert(number_of(&answer));
        let Ok(length) = answer else {
            assert!(buffer == case.buffer);
            continue;
        };
        let before = before.expect("accepted");
        only_the_named_bytes_change(&case.buffer, &buffer, &before, case.length, length);
        reads_as_before_and_the_new_trace_last(&case, &buffer, &before, length);
    }
    let of_check = ALL.iter().copied().filter(|&number| is_of_check(number));
    let expected: BTreeSet<u8> = of_check.chain(24..=30).chain([35, 0]).collect();
    assert_eq!(met, expected);
}

/// N's two bytes, slot N's four, and old end to new end.
fn only_the_named_bytes_change(
    before: &[u8],
    after: &[u8],
    file: &File,
    length: usize,
    new_length: usize,
) {
    let slot = 32 + 4 * usize::from(file.n);
    let mut restored = after.to_vec();
    for named in [6..8, slot..slot + 4, length..new_length] {
        restored[named.clone()].copy_from_slice(&before[named]);
    }
    assert!(restored == before);
}

fn reads_as_before_and_the_new_trace_last(
    case: &AdditionCase,
    buffer: &[u8],
    before: &File,
    length: usize,
) {
    let file = check(buffer, length).expect("a file");
    let (last, earlier) = file.traces.split_last().expect("a trace");
    assert_eq!(file.n, before.n + 1);
    assert_eq!(file.strings, before.strings);
    assert_eq!(earlier, before.traces);
    assert_eq!((file.order, file.m), (before.order, before.m));
    assert_eq!(last.code, case.code);
    assert_eq!(last.p as usize, case.length.next_multiple_of(4));
    assert_eq!(last.end(), length as u64);
    let strings = sheet_strings(&case.sheet).expect("good");
    strings_read_as_given(&file, buffer, &last.strings, &strings);
    let k = i64::from(before.n);
    samples_read_as_given(buffer, length, k, case.code, &case.row);
}

/// A trace that a file takes whose traces have a channel number, or have none.
fn random_trace(rng: &mut Rng, channels: bool) -> TraceGiven {
    let code = rng.between(1, 5) as u8;
    let count = rng.pick(&[0, 4, 8, 12]) + if code == 3 { 0 } else { rng.between(0, 3) };
    let row = row_for(rng, code, count, false);
    let plain = good_sheet(rng).sheet;
    let sheet = match channels {
        true => with_channel(&plain, &good_channel(rng)),
        false => plain,
    };
    TraceGiven { sheet, code, row }
}

/// An addition that must be refused, by its number.
fn refused_trace(rng: &mut Rng, channels: bool) -> (TraceGiven, u8) {
    let mut given = random_trace(rng, channels);
    let number = rng.pick(&[25, 26, 27, 28, 29, 35]);
    match number {
        25 => given.sheet.push(b'x'),
        26 => given.sheet = b"B\t1\nA\t1\n".to_vec(),
        27 => given.sheet = [b"A\t", &vec![b'x'; 65_500][..], b"\n"].concat(),
        28 => given.code = rng.pick(&[0, 6, 255]),
        35 => given.sheet = with_channel(&good_sheet(rng).sheet, &bad_channel(rng)),
        _ => {
            given.code = 1;
            given.row = Row::Integers(vec![0, 40_000]);
        }
    }
    (given, number)
}

/// Start and additions, refused ones in between, give after every step the file
/// that the list defines, and leave what lies behind it.
#[test]
fn growing_is_what_the_list_defines() {
    let mut rng = Rng::new(34);
    for _ in 0..400 {
        let order = rng.between(0, 1) as u32;
        let slots = rng.between(1, 6) as u64;
        let plain = good_sheet(&mut rng).sheet;
        let sheet = sheet_of_a_start(&mut rng, plain);
        // "the first addition is free to choose"; those behind it are not.
        let channels = rng.one_in(2);
        let junk = rng.junk(20_000);
        let mut buffer = junk.clone();
        let mut list = Vec::new();
        let mut length = start(&mut buffer, order, slots, &sheet).expect("room");
        for _ in 0..8 {
            let defined = file_of(order, slots, &sheet, &list).expect("a file");
            assert!(buffer[..length] == defined && length == defined.len());
            assert!(buffer[length..] == junk[length..]);
            if rng.one_in(3) {
                let (bad, number) = match !list.is_empty() && rng.one_in(4) {
                    true => (random_trace(&mut rng, !channels), 35),
                    false => refused_trace(&mut rng, channels),
                };
                let full = list.len() as u64 == slots;
                let expected = if full { 24 } else { number };
                let saved = buffer.clone();
                let answer = add(&mut buffer, length, &bad.sheet, bad.code, &bad.row);
                assert_eq!(answer.map_err(|r| r.number), Err(expected));
                assert!(buffer == saved);
                let with_it = [&list[..], &[bad]].concat();
                let undefined = file_of(order, slots, &sheet, &with_it);
                assert_eq!(undefined.err(), answer.err());
                continue;
            }
            let given = random_trace(&mut rng, channels);
            match add(&mut buffer, length, &given.sheet, given.code, &given.row) {
                Ok(new_length) => {
                    length = new_length;
                    list.push(given);
                }
                Err(refusal) => {
                    assert_eq!(refusal, Refusal::file(24, 0));
                    assert_eq!(list.len() as u64, slots);
                }
            }
        }
        let file = check_for_addition(&buffer, length).expect("a file");
        for (k, given) in list.iter().enumerate() {
            let strings = sheet_strings(&given.sheet).expect("good");
            strings_read_as_given(&file, &buffer, &file.traces[k].strings, &strings);
            samples_read_as_given(&buffer, length, k as i64, given.code, &given.row);
        }
    }
}

/// All code 3 samples near the edges of each exponent.
#[test]
fn code_3_at_every_exponent() {
    let mut given = Vec::new();
    for bit in 0..30 {
        for near in -3..=3 {
            let magnitude: i32 = (1 << bit) + near;
            given.extend([magnitude, -magnitude]);
        }
    }
    given.retain(|v| v.unsigned_abs() < 1 << 30);
    given.resize(given.len().next_multiple_of(4), 0);
    for order in [0, 1] {
        let mut buffer = vec![0; 4000];
        let length = start(&mut buffer, order, 1, b"").expect("room");
        let length = add_integers(&mut buffer, length, b"", 3, &given).expect("room");
        let row = Row::Integers(given.clone());
        samples_read_as_given(&buffer, length, 0, 3, &row);
    }
}

/// The largest number of traces.
#[test]
fn all_16383_slots() {
    let list: Vec<TraceGiven> = (0..16_384)
        .map(|k| TraceGiven {
            sheet: Vec::new(),
            code: 2,
            row: Row::Integers(vec![k]),
        })
        .collect();
    let file = file_of(1, 16_383, b"", &list[..16_383]).expect("a file");
    let read = check(&file, file.len()).expect("a file");
    assert_eq!((read.n, read.traces.len()), (16_383, 16_383));
    let mut row = [0];
    assert_eq!(
        samples_as_integers(&file, file.len(), 16_382, &mut row),
        Ok(())
    );
    assert_eq!(row, [16_382]);
    let over = file_of(1, 16_383, b"", &list);
    assert_eq!(over, Err(Refusal::file(24, 0)));
}

/// A list over the maximum defines no file.
#[test]
fn lists_over_the_maximum() {
    let trace = TraceGiven {
        sheet: Vec::new(),
        code: 5,
        row: Row::Bits(vec![7; 4_200_000]),
    };
    let one = file_of(0, 2, b"", std::slice::from_ref(&trace));
    assert_eq!(one.map(|f| f.len()), Ok(40 + 4 + 36 + 33_600_000));
    let two = file_of(0, 2, b"", &[trace.clone(), trace]);
    assert_eq!(two, Err(Refusal::file(30, 0)));
}
