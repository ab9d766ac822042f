//! The 1990 paper's own examples.

mod common;

use common::{file, string, strings_in, trace};
use seg2_reference::worked::{PAPER_DOUBLES, PAPER_NUMBERS};
use seg2_reference::*;

/// Figure C-1: the offset as printed, the keyword, the value.
const C_1: &[(usize, &str, &str)] = &[
    (30, "ACQUISITION_DATE", "16/08/1989"),
    (28, "ACQUISITION_TIME", "14:23:06"),
    (31, "COMPANY", "XYZ Geophysical Inc."),
    (42, "INSTRUMENT", "Acme Instruments ES-12 #0001"),
    (33, "JOB_ID", "Casselman, Ontario 1989"),
    (20, "OBSERVER", "Joe Blow"),
    (25, "TRACE_SORT", "AS_ACQUIRED"),
    (15, "UNITS", "METERS"),
    (54, "NOTE", "This example is for illustrative purposes only"),
];

/// Figure C-2, with the decimal points that the scan lost. RECEIVER, SOURCE and
/// NOTE have lost more than points in the scan: their offsets (0 here) are counted
/// from what is left of them.
const C_2: &[(usize, &str, &str)] = &[
    (26, "AMPLITUDE_RECOVERY", "NONE"),
    (14, "DELAY", "0.020"),
    (16, "FIXED_GAIN", "84"),
    (27, "HIGH_CUT_FILTER", "1000 -12"),
    (14, "LINE_ID", "100"),
    (24, "LOW_CUT_FILTER", "250 12"),
    (21, "NOTCH_FREQUENCY", "60"),
    (13, "POLARITY", "1"),
    (0, "RECEIVER", "VERTICAL_GEOPHONE"),
    (33, "RECEIVER_LOCATION", "120.5 0 0.25"),
    (42, "RECEIVER_SPECS", "Mark Products L28E 40 Hz"),
    (25, "SAMPLE_INTERVAL", "0.0002"),
    (0, "SOURCE", "12-gauge WIN VW12BL black powder"),
    (24, "SOURCE_LOCATION", "100.0"),
    (10, "STACK", "1"),
    (26, "TRACE_TYPE", "SEISMIC_DATA"),
    (
        0,
        "NOTE",
        "This example describes a trace that was recorded with\
         a 40 Hz vertical geophone.\n\rThe sample interval was 2 microseconds.",
    ),
];

/// "counted from its own first byte to the next string's"
fn area(list: &[(usize, &str, &str)]) -> Vec<u8> {
    let mut bytes = Vec::new();
    for (printed, keyword, value) in list {
        let one = string(format!("{keyword} {value}").as_bytes(), &[0]);
        if *printed != 0 {
            assert_eq!(one.len(), *printed, "{keyword}");
        }
        bytes.extend(one);
    }
    bytes.extend([0, 0]);
    bytes.resize(bytes.len().next_multiple_of(4), 0);
    bytes
}

#[test]
fn figures_c_1_and_c_2_as_lists() {
    for list in [C_1, C_2] {
        let expected: Vec<(String, String)> = list
            .iter()
            .map(|(_, k, v)| (k.to_string(), v.to_string()))
            .collect();
        assert_eq!(strings_in(&[0], b"\n\r", &area(list)), Ok(expected));
    }
}

#[test]
fn figures_c_1_and_c_2_in_a_file() {
    let block = trace(&area(C_2), 2, 1, &[1, 0, 0, 0]);
    let bytes = file(&[0], b"\n\r", &area(C_1), &block);
    let read = check(&bytes, bytes.len()).expect("a file");
    assert_eq!(string_count(&bytes, bytes.len(), -1), Ok(C_1.len()));
    assert_eq!(string_count(&bytes, bytes.len(), 0), Ok(C_2.len()));
    for (part, list) in [(-1, C_1), (0, C_2)] {
        for (_, word, value) in list {
            let found = keyword_value(&bytes, bytes.len(), part, word.as_bytes());
            assert_eq!(&bytes[found], value.as_bytes());
        }
    }
    let note = keyword_value(&bytes, bytes.len(), 0, b"NOTE");
    let lines = note_lines(&read, &bytes[note]);
    assert_eq!(lines.len(), 2);
    assert_eq!(lines[1], b"The sample interval was 2 microseconds.");
    let place = keyword_value(&bytes, bytes.len(), 0, b"RECEIVER_LOCATION");
    let expected = Location {
        x: 120.5,
        y: 0.0,
        z: 0.25,
        count: 3,
        decimals: [1, 0, 2],
    };
    assert_eq!(location(&bytes[place]), Ok(expected));
    let place = keyword_value(&bytes, bytes.len(), 0, b"SOURCE_LOCATION");
    assert_eq!(
        location(&bytes[place]).map(|l| (l.x, l.count)),
        Ok((100.0, 1))
    );
    let delay = keyword_value(&bytes, bytes.len(), 0, b"DELAY");
    assert_eq!(double(&bytes[delay]), Ok(0.02));
}

/// An offset counted from after itself is two short: no terminator there.
#[test]
fn offsets_count_from_their_own_first_byte() {
    let mut bytes = area(C_1);
    bytes[0] = 28;
    assert_eq!(strings_in(&[0], b"\n\r", &bytes), Err((15, 0)));
}

#[test]
fn allowed_numbers() {
    for &(text, expected) in PAPER_NUMBERS {
        assert_eq!(number(text.as_bytes()), Ok(expected), "{text}");
    }
    for &(text, expected) in PAPER_DOUBLES {
        assert_eq!(double(text.as_bytes()), Ok(expected), "{text}");
    }
}
