//! The check of a whole file: document 01, "The file block", "The trace block"
//! and rows 1 to 17 of its table, in the table's order; row 34 of document 02, §7. The lenient
//! reading of §11 is the same check in another manner.

use crate::channel::{breaks_the_rule, CHANNEL_NUMBER};
use crate::refusal::{refuse_if, Refusal, FILE_PART};
use crate::samples::needed_bytes;
use crate::strings::{Area, Manner, StringPlace, Terminators};
use crate::words::{u16_at, u32_at, Order};
use std::ops::Range;

/// "A file is at most 67,108,864 bytes"
pub const MAXIMUM_LENGTH: usize = 67_108_864;

/// The size of the fixed part of either block.
pub(crate) const FIXED_PART: usize = 32;

/// A checked file. The strings keep places in the file, not copies.
#[derive(Clone, Debug, PartialEq, Eq)]
pub struct File {
    pub order: Order,
    /// Size of the pointer room in bytes.
    pub m: u16,
    /// Number of traces.
    pub n: u16,
    pub string_terminator: Vec<u8>,
    pub line_terminator: Vec<u8>,
    /// The file's own strings.
    pub strings: Vec<StringPlace>,
    pub traces: Vec<Trace>,
}

/// A checked trace: its block at `p`, `b` bytes long, then `d` bytes of data.
#[derive(Clone, Debug, PartialEq, Eq)]
pub struct Trace {
    /// Where the block starts.
    pub p: u32,
    /// Size of the block.
    pub b: u16,
    /// Size of the data.
    pub d: u32,
    /// Number of samples.
    pub s: u32,
    /// Format code, 1 to 5.
    pub code: u8,
    pub strings: Vec<StringPlace>,
}

impl Trace {
    /// "strings from byte 32 to B"
    pub(crate) fn strings_range(&self) -> Range<usize> {
        self.p as usize + FIXED_PART..self.data_start() as usize
    }

    /// Where the data starts: p+B.
    pub fn data_start(&self) -> u64 {
        u64::from(self.p) + u64::from(self.b)
    }

    /// "Data occupies D bytes from p+B."
    pub(crate) fn data_range(&self) -> Range<usize> {
        self.data_start() as usize..self.end() as usize
    }

    /// Where the data ends: p+B+D, exact, never modulo 2^32.
    pub fn end(&self) -> u64 {
        self.data_start() + u64::from(self.d)
    }
}

/// Rows 1 to 17 and 34 on the first `length` bytes of the buffer.
pub fn check(buffer: &[u8], length: usize) -> Result<File, Refusal> {
    check_in(buffer, length, Manner::Strict)
}

/// The same check in a manner. The lenient one never gives 17 and 34 (document 02, §11).
pub fn check_in(buffer: &[u8], length: usize, manner: Manner) -> Result<File, Refusal> {
    check_as(buffer, length, Purpose::Reading(manner))
}

/// The same check for an addition, which also accepts an image with N=0
/// ("What we write"). "With N=0 the file's strings run to the image's end."
pub fn check_for_addition(buffer: &[u8], length: usize) -> Result<File, Refusal> {
    check_as(buffer, length, Purpose::Addition)
}

/// What is checked for. "Adding to a file still needs the strict check."
#[derive(Clone, Copy, PartialEq, Eq)]
pub(crate) enum Purpose {
    Reading(Manner),
    Addition,
}

impl Purpose {
    fn manner(self) -> Manner {
        match self {
            Purpose::Reading(manner) => manner,
            Purpose::Addition => Manner::Strict,
        }
    }
}

/// "1 to 7 first, then the first pointer, then the file's strings, then each
/// trace 8 to 17"; 34 "after 17 within each trace".
fn check_as(buffer: &[u8], length: usize, purpose: Purpose) -> Result<File, Refusal> {
    let image = image(buffer, length)?;
    let head = Head::check(image, purpose)?;
    let room_end = head.room_end();
    let strings_end = match head.n {
        0 => image.len(),
        _ => head.pointer(0, room_end as u64)? as usize,
    };
    let strings = head.area(FILE_PART, room_end..strings_end).strings()?;
    let traces = head.traces(room_end as u64)?;
    Ok(File {
        order: head.order,
        m: head.m,
        n: head.n,
        string_terminator: head.terminators.string,
        line_terminator: head.terminators.line,
        strings,
        traces,
    })
}

/// Row 1: the image is the first `length` bytes of the lent buffer.
pub(crate) fn image(buffer: &[u8], length: usize) -> Result<&[u8], Refusal> {
    refuse_if(length < FIXED_PART, Refusal::file(1, 0))?;
    refuse_if(length > MAXIMUM_LENGTH, Refusal::file(1, 0))?;
    buffer.get(..length).ok_or(Refusal::file(1, 0))
}

/// The fixed part of the file block, checked.
pub(crate) struct Head<'a> {
    image: &'a [u8],
    pub order: Order,
    m: u16,
    pub n: u16,
    terminators: Terminators,
    manner: Manner,
}

impl<'a> Head<'a> {
    /// Rows 2 to 7.
    pub fn check(image: &'a [u8], purpose: Purpose) -> Result<Head<'a>, Refusal> {
        let order = byte_order(image)?;
        let revision = u16_at(image, 2, order);
        let m = u16_at(image, 4, order);
        let n = u16_at(image, 6, order);
        refuse_if(revision != 1, Refusal::file(3, 2))?;
        refuse_if(m < 4 || m % 4 != 0, Refusal::file(4, 4))?;
        refuse_if(n == 0 && purpose != Purpose::Addition, Refusal::file(5, 6))?;
        refuse_if(n > m / 4, Refusal::file(5, 6))?;
        let terminators = terminators(image)?;
        let head = Head {
            image,
            order,
            m,
            n,
            terminators,
            manner: purpose.manner(),
        };
        refuse_if(head.room_end() > image.len(), Refusal::file(7, 4))?;
        Ok(head)
    }

    /// The pointer room's end, 32+M.
    pub fn room_end(&self) -> usize {
        FIXED_PART + usize::from(self.m)
    }

    /// Row 8 for trace k, whose block may not start before `previous_end` (for
    /// the first trace the pointer room's end, 32+M).
    pub fn pointer(&self, k: u16, previous_end: u64) -> Result<u32, Refusal> {
        let slot = FIXED_PART + 4 * usize::from(k);
        let p = u32_at(self.image, slot, self.order);
        let refusal = Refusal::new(8, i64::from(k), slot);
        refuse_if(p % 4 != 0, refusal)?;
        refuse_if(u64::from(p) < previous_end, refusal)?;
        refuse_if(self.past_the_end(u64::from(p) + FIXED_PART as u64), refusal)?;
        Ok(p)
    }

    /// Each trace's rows 8 to 17 and 34, one trace after the other.
    fn traces(&self, room_end: u64) -> Result<Vec<Trace>, Refusal> {
        let mut traces = Vec::new();
        let mut previous_end = room_end;
        for k in 0..self.n {
            let trace = self.trace(k, previous_end)?;
            previous_end = trace.end();
            if self.manner == Manner::Strict {
                self.channel(k, &trace, traces.first().unwrap_or(&trace))?;
            }
            traces.push(trace);
        }
        Ok(traces)
    }

    /// Rows 8 to 17 for trace k.
    fn trace(&self, k: u16, previous_end: u64) -> Result<Trace, Refusal> {
        let part = i64::from(k);
        let p = self.pointer(k, previous_end)?;
        let mut trace = self.trace_block(part, p)?;
        trace.strings = self.area(part, trace.strings_range()).strings()?;
        Ok(trace)
    }

    /// Row 34, "after 17 within each trace, at the trace's p+32".
    fn channel(&self, k: u16, trace: &Trace, first: &Trace) -> Result<(), Refusal> {
        let [own, others] = [trace, first].map(|t| channel_number(self.image, t));
        let place = trace.p as usize + FIXED_PART;
        refuse_if(
            breaks_the_rule(own, others.is_some()),
            Refusal::new(34, i64::from(k), place),
        )
    }

    /// Rows 9 to 13: the fixed part of the trace block at p. Row 8 has shown
    /// that its 32 bytes lie in the image.
    pub fn trace_block(&self, part: i64, p: u32) -> Result<Trace, Refusal> {
        let at = p as usize;
        let trace = Trace {
            p,
            b: u16_at(self.image, at + 2, self.order),
            d: u32_at(self.image, at + 4, self.order),
            s: u32_at(self.image, at + 8, self.order),
            code: self.image[at + 12],
            strings: Vec::new(),
        };
        let identifier = u16_at(self.image, at, self.order);
        refuse_if(identifier != 0x4422, Refusal::new(9, part, at))?;
        let bad_size = trace.b < 32 || trace.b % 4 != 0 || self.past_the_end(trace.data_start());
        refuse_if(bad_size, Refusal::new(10, part, at + 2))?;
        let bad_data = trace.d % 4 != 0 || self.past_the_end(trace.end());
        refuse_if(bad_data, Refusal::new(11, part, at + 4))?;
        let Some(needed) = needed_bytes(trace.code, u64::from(trace.s)) else {
            return Err(Refusal::new(12, part, at + 12));
        };
        let bad_count = trace.code == 3 && trace.s % 4 != 0 || needed > u64::from(trace.d);
        refuse_if(bad_count, Refusal::new(13, part, at + 8))?;
        Ok(trace)
    }

    /// The area of a part's strings between two places.
    pub fn area(&self, part: i64, range: Range<usize>) -> Area<'_> {
        Area {
            image: self.image,
            order: self.order,
            terminators: &self.terminators,
            manner: self.manner,
            part,
            range,
        }
    }

    /// Beyond the image's length; equal passes.
    fn past_the_end(&self, place: u64) -> bool {
        place > self.image.len() as u64
    }
}

/// A trace's CHANNEL_NUMBER, if it has one. The file's own strings may have one too, which
/// the rule does not speak of.
pub(crate) fn channel_number<'a>(image: &'a [u8], trace: &Trace) -> Option<&'a [u8]> {
    let asked_for = |string: &&StringPlace| &image[string.keyword.clone()] == CHANNEL_NUMBER;
    let string = trace.strings.iter().find(asked_for)?;
    Some(&image[string.value.clone()])
}

/// Row 2: "55 3A is low byte first, 3A 55 high byte first".
fn byte_order(image: &[u8]) -> Result<Order, Refusal> {
    match image {
        [0x55, 0x3A, ..] => Ok(Order::Low),
        [0x3A, 0x55, ..] => Ok(Order::High),
        _ => Err(Refusal::file(2, 0)),
    }
}

/// Row 6: the string terminator is judged first (place 8), then the line
/// terminator, then sharing (place 11).
fn terminators(image: &[u8]) -> Result<Terminators, Refusal> {
    let string = terminator(image, 8).ok_or(Refusal::file(6, 8))?;
    let line = terminator(image, 11).ok_or(Refusal::file(6, 11))?;
    let sharing = line.iter().any(|c| string.contains(c));
    refuse_if(sharing, Refusal::file(6, 11))?;
    Ok(Terminators { string, line })
}

/// "each terminator's length is 1 or 2 (any other is bad), the used terminator
/// characters are 0 to 31, neither terminator uses tab (9)". The unused second
/// byte of a one-byte terminator is ignored.
fn terminator(image: &[u8], place: usize) -> Option<Vec<u8>> {
    let length = match image[place] {
        1 => 1,
        2 => 2,
        _ => return None,
    };
    let used = image[place + 1..place + 1 + length].to_vec();
    let allowed = used.iter().all(|&c| c <= 31 && c != b'\t');
    allowed.then_some(used)
}
