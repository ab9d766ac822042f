//! Laying a model out, byte by byte, and telling what a reader must find in it.

use super::model::{AreaModel, End, Float20, Model, SamplesModel, TraceModel};
use crate::check::{File, Trace};
use crate::strings::StringPlace;
use crate::words::Order;
use std::ops::Range;

/// A model as bytes. `file` is what the check must answer if the model is valid.
#[derive(Clone, Debug)]
pub struct Laid {
    pub buffer: Vec<u8>,
    pub length: usize,
    pub file: File,
}

/// Stands where an area or a data block is filled up to a multiple of 4: any
/// value but 0 shows that such bytes are ignored.
const FILLER: u8 = 0x5A;

impl Laid {
    /// The strings of a part; -1 is the file.
    pub fn strings(&self, part: i64) -> &[StringPlace] {
        match part {
            -1 => &self.file.strings,
            trace => &self.file.traces[trace as usize].strings,
        }
    }

    /// The bytes in which a part's strings lie.
    pub fn area(&self, part: i64) -> Range<usize> {
        if part >= 0 {
            let trace = &self.file.traces[part as usize];
            return trace.p as usize + 32..trace.p as usize + usize::from(trace.b);
        }
        let start = 32 + usize::from(self.file.m);
        match self.file.traces.first() {
            Some(first) => start..first.p as usize,
            None => start..self.length,
        }
    }

    /// Where trace k may start at the earliest.
    pub fn previous_end(&self, k: usize) -> usize {
        match k {
            0 => 32 + usize::from(self.file.m),
            _ => {
                let previous = &self.file.traces[k - 1];
                previous.p as usize + usize::from(previous.b) + previous.d as usize
            }
        }
    }

    /// -1 and every trace.
    pub fn parts(&self) -> Vec<i64> {
        (-1..i64::from(self.file.n)).collect()
    }
}

pub fn two(value: u16, order: Order) -> [u8; 2] {
    match order {
        Order::Low => [value as u8, (value >> 8) as u8],
        Order::High => [(value >> 8) as u8, value as u8],
    }
}

pub fn four(value: u32, order: Order) -> [u8; 4] {
    let mut bytes = [0, 8, 16, 24].map(|shift| (value >> shift) as u8);
    if order == Order::High {
        bytes.reverse();
    }
    bytes
}

fn eight(value: u64, order: Order) -> [u8; 8] {
    let mut bytes = [0, 8, 16, 24, 32, 40, 48, 56].map(|shift| (value >> shift) as u8);
    if order == Order::High {
        bytes.reverse();
    }
    bytes
}

impl Model {
    pub fn lay(&self) -> Laid {
        let mut bytes = self.fixed_part();
        bytes.resize(32 + 4 * self.traces.len(), 0);
        bytes.extend(&self.spare_slots);
        bytes.resize(32 + 4 * usize::from(self.slots), 0);
        let strings = self.lay_area(&mut bytes, &self.area);
        let mut traces = Vec::new();
        for (k, trace) in self.traces.iter().enumerate() {
            traces.push(self.lay_trace(&mut bytes, trace));
            let slot = 32 + 4 * k;
            bytes[slot..slot + 4].copy_from_slice(&four(traces[k].p, self.order));
        }
        bytes.extend(&self.after);
        let length = bytes.len();
        bytes.extend(&self.beyond);
        let file = File {
            order: self.order,
            m: 4 * self.slots,
            n: self.traces.len() as u16,
            string_terminator: self.string_terminator.clone(),
            line_terminator: self.line_terminator.clone(),
            strings,
            traces,
        };
        Laid {
            buffer: bytes,
            length,
            file,
        }
    }

    fn fixed_part(&self) -> Vec<u8> {
        let mut bytes = Vec::new();
        bytes.extend(two(0x3A55, self.order));
        bytes.extend(two(1, self.order));
        bytes.extend(two(4 * self.slots, self.order));
        bytes.extend(two(self.traces.len() as u16, self.order));
        for (terminator, unused) in [
            (&self.string_terminator, self.unused[0]),
            (&self.line_terminator, self.unused[1]),
        ] {
            bytes.push(terminator.len() as u8);
            bytes.extend(terminator);
            bytes.extend(vec![unused; 2 - terminator.len()]);
        }
        bytes.extend(&self.reserved);
        bytes
    }

    /// Strings, then what ends the area. In a file an area with an end mark is
    /// filled up to a multiple of 4, because the next block starts there.
    fn lay_area(&self, bytes: &mut Vec<u8>, area: &AreaModel) -> Vec<StringPlace> {
        let mut places = Vec::new();
        for string in &area.strings {
            let at = bytes.len();
            let body = string.body(&self.line_terminator);
            let size = 2 + body.len() + self.string_terminator.len();
            bytes.extend(two(size as u16, self.order));
            bytes.extend(&body);
            bytes.extend(&self.string_terminator);
            let keyword = at + 2..at + 2 + string.keyword.len();
            let value = keyword.end + string.separators.len()..at + 2 + body.len();
            places.push(StringPlace { keyword, value });
        }
        match &area.end {
            End::Nothing => {}
            End::Byte(byte) => bytes.push(*byte),
            End::Mark(ignored) => {
                bytes.extend([0, 0]);
                bytes.extend(ignored);
                if !self.traces.is_empty() {
                    fill_to_4(bytes);
                }
            }
        }
        places
    }

    fn lay_trace(&self, bytes: &mut Vec<u8>, trace: &TraceModel) -> Trace {
        bytes.extend(&trace.gap);
        let p = bytes.len();
        bytes.extend(vec![0; 32]);
        let strings = self.lay_area(bytes, &trace.area);
        let b = bytes.len() - p;
        bytes.extend(lay_samples(&trace.samples, self.order));
        bytes.extend(&trace.slack);
        fill_to_4(bytes);
        let d = bytes.len() - p - b;
        let laid = Trace {
            p: p as u32,
            b: b as u16,
            d: d as u32,
            s: trace.samples.count() as u32,
            code: trace.samples.code(),
            strings,
        };
        let mut fixed = Vec::new();
        fixed.extend(two(0x4422, self.order));
        fixed.extend(two(laid.b, self.order));
        fixed.extend(four(laid.d, self.order));
        fixed.extend(four(laid.s, self.order));
        fixed.push(laid.code);
        fixed.extend(&trace.reserved);
        bytes[p..p + 32].copy_from_slice(&fixed);
        laid
    }
}

fn fill_to_4(bytes: &mut Vec<u8>) {
    while bytes.len() % 4 != 0 {
        bytes.push(FILLER);
    }
}

fn lay_samples(samples: &SamplesModel, order: Order) -> Vec<u8> {
    match samples {
        SamplesModel::Code1(row) => row.iter().flat_map(|&v| two(v as u16, order)).collect(),
        SamplesModel::Code2(row) => row.iter().flat_map(|&v| four(v as u32, order)).collect(),
        SamplesModel::Code3(row) => row.chunks(4).flat_map(|g| lay_group(g, order)).collect(),
        SamplesModel::Code4(row) => row.iter().flat_map(|&v| four(v, order)).collect(),
        SamplesModel::Code5(row) => row.iter().flat_map(|&v| eight(v, order)).collect(),
    }
}

/// Figure B-3: the exponents' word, then four mantissas; one's complement, so a
/// negative mantissa is 65535 less its magnitude.
fn lay_group(group: &[Float20], order: Order) -> Vec<u8> {
    let exponents = (0..4).map(|i| group[i].exponent << (4 * i)).sum();
    let mut bytes = two(exponents, order).to_vec();
    for float in group {
        let word = if float.minus {
            65_535 - float.magnitude
        } else {
            float.magnitude
        };
        bytes.extend(two(word, order));
    }
    bytes
}
