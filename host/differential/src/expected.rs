//! The calls as the reference answers them, in the form of the archive's answers.

use crate::answer::{signed, Answer, Verdict};
use crate::call::{Call, Forged};
use crate::lent::Memory;
use seg2_reference as reference;
use seg2_reference::{
    Checked, File, Lenient, Location, Manner, Number, Order, Refusal, StringPlace,
};
use std::ops::Range;

/// The reference's answer, and the memory after it.
pub fn expected(call: Call, length: usize, memory: &mut Memory) -> Answer {
    Known::default().expected(call, length, memory)
}

/// What the reference's checks have said of a buffer: every question asks them first.
#[derive(Default)]
pub struct Known {
    length: usize,
    /// By the manner.
    files: [Option<Result<File, Refusal>>; 2],
}

impl Known {
    /// The answer, of a buffer that no call has changed since the last one. After a call that may
    /// change it nothing is known.
    pub fn expected(&mut self, call: Call, length: usize, memory: &mut Memory) -> Answer {
        if call.writes() || length != self.length {
            *self = Known {
                length,
                ..Known::default()
            };
        }
        if let Some(question) = call.strict() {
            let answer = self.ask(question, Manner::Lenient, memory);
            let strict = self.file(&memory.buffer, Manner::Strict).err();
            return lenient(Lenient { answer, strict }, |answer| answer);
        }
        if call.lenient().is_some() {
            return told(self.ask(call, Manner::Strict, memory), |answer| answer);
        }
        by_itself(call, length, memory)
    }

    /// The file that a check accepts, or its refusal.
    fn file(&mut self, buffer: &[u8], manner: Manner) -> Result<&File, Refusal> {
        let length = self.length;
        let known = &mut self.files[manner as usize];
        let file = known.get_or_insert_with(|| reference::check_in(buffer, length, manner));
        file.as_ref().map_err(|refusal| *refusal)
    }

    /// A question in a manner, by its strict form.
    fn ask(
        &mut self,
        question: Call,
        manner: Manner,
        memory: &mut Memory,
    ) -> Result<Answer, Refusal> {
        let Memory {
            buffer,
            key,
            integers,
            patterns,
            classes,
            strings,
            ..
        } = memory;
        let file = Checked {
            buffer,
            file: self.file(buffer, manner)?,
            manner,
        };
        let part = i64::from(question.part().unwrap_or(-1));
        Ok(match question {
            Call::Check => nothing(()),
            Call::FileBlock => file_block(file.block()),
            Call::TraceBlock { .. } => trace_block(file.trace(part)?),
            Call::StringCount { .. } => count(file.strings(part)?.len()),
            Call::String { index, .. } => string(file.strings(part)?.get(index)),
            Call::Strings { .. } => nothing(file.places(part, strings)?),
            Call::Keyword { .. } => yes_or_no(file.find(part, key)?.is_some()),
            Call::Value { .. } => place(file.value(part, key)?),
            // An absent keyword's text is empty: that is no number (20) and no location (23).
            Call::Number { .. } => number(reference::number(file.text(part, key)?)?),
            Call::Double { .. } => double(reference::double(file.text(part, key)?)?),
            Call::Location { .. } => location(reference::location(file.text(part, key)?)?),
            Call::Integers { .. } => nothing(file.integers(part, integers)?),
            Call::Bits { .. } => nothing(file.bits(part, patterns, classes)?),
            other => unreachable!("no question of a file: {other:?}"),
        })
    }
}

/// Calls that do not check a whole file first, or check it for themselves.
fn by_itself(call: Call, length: usize, memory: &mut Memory) -> Answer {
    let Memory {
        buffer,
        key,
        sheet,
        integers,
        patterns,
        classes,
        strings,
        text,
    } = memory;
    match call {
        Call::QuickTraceBlock { trace } => told(
            reference::quick_trace_block(buffer, length, trace.into()),
            |block| trace_block(&block),
        ),
        Call::QuickStringCount { trace } => told(
            reference::quick_string_count(buffer, length, trace.into()),
            count,
        ),
        Call::QuickString { trace, index } => told(
            reference::quick_string(buffer, length, trace.into(), index),
            |found| string(found.as_ref()),
        ),
        Call::QuickStrings { trace } => told(
            reference::quick_strings(buffer, length, trace.into(), strings),
            nothing,
        ),
        Call::QuickKeyword { trace } => told(
            reference::quick_keyword(buffer, length, trace.into(), key),
            yes_or_no,
        ),
        Call::QuickValue { trace } => told(
            reference::quick_search(buffer, length, trace.into(), key).answer,
            |found| place(found.map_or(0..0, |string| string.value)),
        ),
        Call::QuickNumber { trace } => told(
            reference::quick_number(buffer, length, trace.into(), key),
            number,
        ),
        Call::QuickDouble { trace } => told(
            reference::quick_double(buffer, length, trace.into(), key),
            double,
        ),
        Call::QuickLocation { trace } => told(
            reference::quick_location(buffer, length, trace.into(), key),
            location,
        ),
        Call::QuickIntegers { trace } => told(
            reference::quick_integers(buffer, length, trace.into(), integers),
            nothing,
        ),
        Call::QuickBits { trace } => told(
            reference::quick_bits(buffer, length, trace.into(), patterns, classes),
            nothing,
        ),
        Call::ReadNumber => told(reference::number(text), number),
        Call::WriteNumber(given) => told(reference::write_number(text, given.number()), new_length),
        Call::Start { order, slots } => told(
            reference::start(buffer, order, slots.into(), sheet),
            new_length,
        ),
        Call::StartSize { order, slots } => told(
            reference::start_size(order, slots.into(), sheet),
            new_length,
        ),
        Call::AddSize { code, count } => told(
            reference::add_size(buffer, length, sheet, narrow(code), count),
            new_length,
        ),
        Call::AddIntegers { code } => told(
            reference::add_integers(buffer, length, sheet, narrow(code), integers),
            new_length,
        ),
        Call::AddBits { code } => told(
            reference::add_bits(buffer, length, sheet, narrow(code), patterns),
            new_length,
        ),
        other => unreachable!("a question of a file: {other:?}"),
    }
}

pub(crate) fn told<T>(answer: Result<T, Refusal>, good: impl FnOnce(T) -> Answer) -> Answer {
    match answer {
        Ok(value) => good(value),
        Err(refusal) => refused(refusal),
    }
}

fn refused(refusal: Refusal) -> Answer {
    Answer::refused(
        u32::from(refusal.number),
        i32::try_from(refusal.part).expect("a part of 32 bits"),
        usize::try_from(refusal.place).expect("a place in a buffer"),
    )
}

/// A lenient answer with the strict verdict beside it.
pub(crate) fn lenient<T>(both: Lenient<T>, good: impl FnOnce(T) -> Answer) -> Answer {
    let strict = both.strict.map(|refusal| refused(refusal).verdict());
    told(both.answer, good).beside(strict.unwrap_or(Verdict::ACCEPTED))
}

/// What is answered stands in lent rows.
pub(crate) fn nothing(_: ()) -> Answer {
    Answer::good([])
}

pub(crate) fn count(count: usize) -> Answer {
    Answer::good([count as u64])
}

pub(crate) fn yes_or_no(found: bool) -> Answer {
    Answer::good([u64::from(found)])
}

pub(crate) fn file_block(block: reference::FileBlock) -> Answer {
    Answer::good([
        u64::from(block.order == Order::High),
        u64::from(block.m),
        u64::from(block.n),
        block.string_terminator.len() as u64,
        block.line_terminator.len() as u64,
    ])
}

pub(crate) fn trace_block(trace: &reference::Trace) -> Answer {
    Answer::good([
        u64::from(trace.p),
        u64::from(trace.b),
        u64::from(trace.d),
        u64::from(trace.s),
        u64::from(trace.code),
    ])
}

pub(crate) fn string(string: Option<&StringPlace>) -> Answer {
    let Some(string) = string else {
        return Answer::good([]);
    };
    let [key, key_size, value, size] = string.numbers().map(|n| n as u64);
    Answer::good([1, key, key_size, value, size])
}

/// A value's start and length.
pub(crate) fn place(value: Range<usize>) -> Answer {
    Answer::good([value.start as u64, value.len() as u64])
}

/// A number's values in the order of the answer's fields.
pub fn number(number: Number) -> Answer {
    Answer::good([
        u64::from(number.minus),
        signed(number.power),
        number.coefficient,
        u64::from(number.decimals),
    ])
}

pub(crate) fn double(value: f64) -> Answer {
    Answer::good([value.to_bits()])
}

pub(crate) fn location(location: Location) -> Answer {
    let [x, y, z] = [location.x, location.y, location.z].map(f64::to_bits);
    let [of_x, of_y, of_z] = location.decimals.map(u64::from);
    Answer::good([u64::from(location.count), x, y, z, of_x, of_y, of_z])
}

impl Forged {
    /// The number, with this for a minus where it has one: any but 0 is one.
    pub fn of(number: Number, minus: u32) -> Forged {
        Forged {
            minus: if number.minus { minus } else { 0 },
            coefficient: number.coefficient,
            power: number.power,
            decimals: number.decimals,
        }
    }

    fn number(self) -> Number {
        Number {
            minus: self.minus != 0,
            coefficient: self.coefficient,
            power: self.power,
            decimals: self.decimals,
        }
    }
}

fn new_length(length: usize) -> Answer {
    Answer::good([length as u64])
}

/// The reference takes codes of 8 bits: a wider one is as little a code as 255 is.
pub(crate) fn narrow(code: u32) -> u8 {
    u8::try_from(code).unwrap_or(255)
}
