//! Files of which every byte is told: for tests that want one text or one data block in
//! them, whatever it holds. Nothing is checked here.

use super::lay::{four, two};
use crate::words::Order;

/// A trace: its strings' texts (keyword, separators, value), its code, S and data block.
#[derive(Clone, Copy, Debug, Default)]
pub struct PlainTrace<'a> {
    pub strings: &'a [&'a [u8]],
    pub code: u8,
    pub count: u32,
    pub data: &'a [u8],
}

impl<'a> PlainTrace<'a> {
    /// Without samples, of code 1.
    pub fn of_strings(strings: &'a [&'a [u8]]) -> PlainTrace<'a> {
        PlainTrace {
            strings,
            code: 1,
            ..PlainTrace::default()
        }
    }
}

/// One string: its offset, its text and the terminator 0.
fn string(order: Order, text: &[u8]) -> Vec<u8> {
    [&two(text.len() as u16 + 3, order)[..], text, &[0]].concat()
}

/// Strings one behind the other, the end mark and zeros to a multiple of 4.
fn area(order: Order, texts: &[&[u8]]) -> Vec<u8> {
    let mut bytes: Vec<u8> = texts.iter().flat_map(|t| string(order, t)).collect();
    bytes.extend([0, 0]);
    bytes.resize(bytes.len().next_multiple_of(4), 0);
    bytes
}

/// The file of these strings and traces, terminators 0 and 0Ah, a slot for each trace.
pub fn plain_file(order: Order, strings: &[&[u8]], traces: &[PlainTrace]) -> Vec<u8> {
    let m = 4 * traces.len() as u16;
    let mut head = [
        &two(0x3A55, order)[..],
        &two(1, order),
        &two(m, order),
        &two(traces.len() as u16, order),
        &[1, 0, 0, 1, 10, 0],
    ]
    .concat();
    head.resize(32, 0);
    let texts = area(order, strings);
    let mut at = 32 + usize::from(m) + texts.len();
    let mut blocks = Vec::new();
    for trace in traces {
        head.extend(four(at as u32, order));
        let texts = area(order, trace.strings);
        let mut block = [
            &two(0x4422, order)[..],
            &two(32 + texts.len() as u16, order),
            &four(trace.data.len() as u32, order),
            &four(trace.count, order),
            &[trace.code],
        ]
        .concat();
        block.resize(32, 0);
        at += 32 + texts.len() + trace.data.len();
        blocks.extend([&block[..], &texts, trace.data].concat());
    }
    [head, texts, blocks].concat()
}
