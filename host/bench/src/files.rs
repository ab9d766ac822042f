//! Files as a crew records them, made by the reference.

use seg2_reference::generate::{plain_file, PlainTrace, Rng};
use seg2_reference::samples::needed_bytes;
use seg2_reference::words::bytes_of_u16;
use seg2_reference::{check, file_of, start, Order, Row, StringPlace, TraceGiven};
use std::ops::Range;

/// A few strings, as a seismograph writes them into each trace.
pub fn trace_sheet(channel: usize) -> Vec<u8> {
    let number = format!("CHANNEL_NUMBER\t{channel}\n");
    [number.as_bytes(), &unnumbered_sheet(channel)].concat()
}

/// The same without the channel number.
pub fn unnumbered_sheet(channel: usize) -> Vec<u8> {
    format!(
        "DELAY\t-0.010\nDESCALING_FACTOR\t0.000122\n\
         RECEIVER_LOCATION\t{}.5 0 0\nSAMPLE_INTERVAL\t0.000250\nSOURCE_LOCATION\t-12.0 0 0\nSTACK\t4\n",
        2 * channel
    )
    .into_bytes()
}

const FILE_SHEET: &[u8] = b"ACQUISITION_DATE\t11/05/2024\nACQUISITION_TIME\t09:12:33\nCOMPANY\tNear Surface\n\
INSTRUMENT\tseismograph 24 channels\nTRACE_SORT\tAS_ACQUIRED\nUNITS\tMETERS\nNOTE\tfirst line of notes\nNOTE\tsecond line\n";

/// So many traces of so many samples of code 2, with one slot to spare.
pub fn file(order: u32, traces: usize, samples: usize) -> Vec<u8> {
    file_with(order, traces, samples, |k| trace_sheet(k + 1))
}

/// The same with other sheets.
pub fn file_with(
    order: u32,
    traces: usize,
    samples: usize,
    sheet: impl Fn(usize) -> Vec<u8>,
) -> Vec<u8> {
    let list: Vec<TraceGiven> = (0..traces)
        .map(|k| TraceGiven {
            sheet: sheet(k),
            code: 2,
            row: Row::Integers((0..samples).map(|i| (i * 7919 + k) as i32).collect()),
        })
        .collect();
    file_of(order, traces as u64 + 1, FILE_SHEET, &list).expect("a file")
}

/// The same file as an older recorder would write it (document 02, §11), from some trace on;
/// from -1 on also the file's own strings.
pub fn older_file(order: u32, traces: usize, samples: usize, from: i64) -> Vec<u8> {
    let mut bytes = file(order, traces, samples);
    let laid = check(&bytes, bytes.len()).expect("a file");
    for part in from..traces as i64 {
        let (strings, area) = match usize::try_from(part) {
            Ok(k) => {
                let trace = &laid.traces[k];
                let area = trace.p as usize + 32..trace.data_start() as usize;
                (&trace.strings, area)
            }
            Err(_) => {
                let area = 32 + usize::from(laid.m)..laid.traces[0].p as usize;
                (&laid.strings, area)
            }
        };
        age(&mut bytes, laid.order, strings, area);
    }
    bytes
}

/// The strings of an area backwards, their keywords in lower case, and no end mark: the last
/// one has spaces up to the area's end.
fn age(bytes: &mut [u8], order: Order, strings: &[StringPlace], area: Range<usize>) {
    let mut old = Vec::new();
    let mut last = 0;
    for string in strings.iter().rev() {
        last = old.len();
        old.extend(&bytes[string.keyword.start - 2..string.value.end]);
        old[last + 2..][..string.keyword.len()].make_ascii_lowercase();
        old.push(0);
    }
    old.pop();
    old.resize(area.len() - 1, b' ');
    old.push(0);
    let offset = bytes_of_u16((old.len() - last) as u16, order);
    old[last..last + 2].copy_from_slice(&offset);
    bytes[area].copy_from_slice(&old);
}

/// A file with one trace of so many samples, whose data bytes have no pattern.
pub fn file_of_one(order: Order, code: u8, samples: usize) -> Vec<u8> {
    let needed = needed_bytes(code, samples as u64).expect("a code") as usize;
    let mut rng = Rng::new(7);
    let data: Vec<u8> = (0..needed.next_multiple_of(4))
        .map(|_| rng.byte())
        .collect();
    let trace = PlainTrace {
        strings: &[b"STACK 4"],
        code,
        count: samples as u32,
        data: &data,
    };
    plain_file(order, &[b"UNITS METERS"], &[trace])
}

/// A started file of one slot: what a trace is added to.
pub fn started(order: u32) -> Vec<u8> {
    let mut buffer = vec![0; 1000];
    let length = start(&mut buffer, order, 1, b"UNITS\tMETERS\n").expect("a start");
    buffer.truncate(length);
    buffer
}
