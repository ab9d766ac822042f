//! Every worked value of document 01, and its listing example byte for byte.

mod common;

use common::{file, refusal, trace};
use seg2_reference::samples::{decode_integers, encode_integers};
use seg2_reference::worked::{
    example, Block, CODES_1_AND_2, CODE_3, CODE_3_KEPT, CODE_3_TOO_LARGE, CODE_3_WRITTEN,
    EXAMPLE_LISTED, EXAMPLE_SAMPLES, EXAMPLE_SHEET, EXAMPLE_TRACE_SHEET, NO_DOUBLE, NO_LOCATION,
    NUMBERS,
};
use seg2_reference::{
    add_integers, check, check_for_addition, double, file_of, keyword_value, listing, location,
    number, samples_as_integers, start, Order, Row, TraceGiven,
};

fn decoded(code: u8, order: Order, data: &[u8]) -> Vec<i32> {
    decode_integers(code, order, data).expect("a code of integers")
}

fn reads(blocks: &[Block]) {
    for &(code, order, data, samples) in blocks {
        assert_eq!(decoded(code, order, data), samples);
    }
}

#[test]
fn codes_1_and_2() {
    reads(CODES_1_AND_2);
}

#[test]
fn code_3_read() {
    reads(CODE_3);
}

#[test]
fn code_3_written() {
    let (samples, data) = CODE_3_WRITTEN;
    assert_eq!(encode_integers(3, Order::Low, &samples), Ok(data.to_vec()));
    for (sample, kept) in CODE_3_KEPT {
        for order in [Order::Low, Order::High] {
            let data = encode_integers(3, order, &[sample, 0, 0, 0]).expect("in range");
            assert_eq!(decoded(3, order, &data), [kept, 0, 0, 0]);
        }
    }
    for sample in CODE_3_TOO_LARGE {
        let data = encode_integers(3, Order::High, &[0, 0, sample, 0]);
        assert_eq!(data, Err(refusal(29, -1, 2)));
    }
}

#[test]
fn numbers() {
    for &(text, expected) in NUMBERS {
        let expected = expected.map_err(|row| refusal(row, -1, 0));
        assert_eq!(number(text.as_bytes()), expected, "{text}");
    }
    assert_eq!(double(NO_DOUBLE.as_bytes()), Err(refusal(22, -1, 0)));
    assert_eq!(location(NO_LOCATION.as_bytes()), Err(refusal(23, -1, 0)));
}

#[test]
fn m_of_65532_passes_4_and_0_does_not() {
    let mut buffer = vec![0xEE; 70_000];
    let length = start(&mut buffer, 0, 16_383, b"").expect("room for it");
    assert_eq!(length, 32 + 65_532 + 4);
    assert_eq!(check_for_addition(&buffer, length).map(|f| f.m), Ok(65_532));
    buffer[4..6].copy_from_slice(&[0, 0]);
    assert_eq!(check_for_addition(&buffer, length), Err(refusal(4, -1, 4)));
}

#[test]
fn b_of_32_passes_and_28_does_not() {
    let mut bytes = file(&[0], &[10], &[], &trace(&[], 1, 0, &[]));
    assert_eq!(check(&bytes, bytes.len()).map(|f| f.traces[0].b), Ok(32));
    bytes[38] = 28;
    assert_eq!(check(&bytes, bytes.len()), Err(refusal(10, 0, 38)));
}

#[test]
fn example_written() {
    let mut buffer = vec![0xEE; 120];
    let length = start(&mut buffer, 0, 1, EXAMPLE_SHEET).expect("room for it");
    assert_eq!(length, 56);
    assert_eq!(listing(&buffer[..length]), b"R\t5\tF\t6\n");
    let length = add_integers(
        &mut buffer,
        length,
        EXAMPLE_TRACE_SHEET,
        1,
        &EXAMPLE_SAMPLES,
    );
    assert_eq!(length, Ok(108));
    assert_eq!(buffer[..108], example());
    assert_eq!(buffer[108..], [0xEE; 12]);
    let given = TraceGiven {
        sheet: EXAMPLE_TRACE_SHEET.to_vec(),
        code: 1,
        row: Row::Integers(EXAMPLE_SAMPLES.to_vec()),
    };
    let defined = file_of(0, 1, EXAMPLE_SHEET, &[given]);
    assert_eq!(defined, Ok(example()));
}

#[test]
fn example_read() {
    let bytes = example();
    let file = check(&bytes, bytes.len()).expect("a file");
    let found = &file.traces[0];
    assert_eq!((found.p, found.b, found.d, found.s), (56, 44, 8, 3));
    let mut row = [0; 3];
    assert_eq!(samples_as_integers(&bytes, 108, 0, &mut row), Ok(()));
    assert_eq!(row, EXAMPLE_SAMPLES);
    let value = keyword_value(&bytes, 108, -1, b"UNITS");
    assert_eq!(&bytes[value], b"METERS");
    assert_eq!(&bytes[keyword_value(&bytes, 108, 0, b"STACK")], b"1");
}

#[test]
fn example_listed() {
    let listed = String::from_utf8(listing(&example())).expect("text");
    assert_eq!(listed, EXAMPLE_LISTED);
}
