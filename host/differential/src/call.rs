//! The calls, and the archive as Rust calls it.

use crate::answer::Answer;
use crate::lent::Lent;
use seg2::raw;
use std::mem::{offset_of, MaybeUninit};

/// A call of an exported function. What is lent, keyword and sheet included, stands
/// in [`Lent`] and [`crate::lent::Memory`]; `length` is the length beside the buffer.
#[derive(Clone, Copy, Debug, PartialEq, Eq)]
pub enum Call {
    Check,
    FileBlock,
    TraceBlock { trace: i32 },
    StringCount { part: i32 },
    String { part: i32, index: usize },
    Strings { part: i32 },
    Keyword { part: i32 },
    Value { part: i32 },
    Number { part: i32 },
    Double { part: i32 },
    Location { part: i32 },
    Integers { trace: i32 },
    Bits { trace: i32 },
    QuickTraceBlock { trace: i32 },
    QuickStringCount { trace: i32 },
    QuickString { trace: i32, index: usize },
    QuickStrings { trace: i32 },
    QuickKeyword { trace: i32 },
    QuickValue { trace: i32 },
    QuickNumber { trace: i32 },
    QuickDouble { trace: i32 },
    QuickLocation { trace: i32 },
    QuickIntegers { trace: i32 },
    QuickBits { trace: i32 },
    LenientCheck,
    LenientFileBlock,
    LenientTraceBlock { trace: i32 },
    LenientStringCount { part: i32 },
    LenientString { part: i32, index: usize },
    LenientStrings { part: i32 },
    LenientKeyword { part: i32 },
    LenientValue { part: i32 },
    LenientNumber { part: i32 },
    LenientDouble { part: i32 },
    LenientLocation { part: i32 },
    LenientIntegers { trace: i32 },
    LenientBits { trace: i32 },
    ReadNumber,
    WriteNumber(Forged),
    Start { order: u32, slots: u32 },
    StartSize { order: u32, slots: u32 },
    AddIntegers { code: u32 },
    AddBits { code: u32 },
    AddSize { code: u32, count: usize },
}

/// A number as it is given to be written: any values, also such as no text gives.
#[derive(Clone, Copy, Debug, PartialEq, Eq)]
pub struct Forged {
    /// 0 or not.
    pub minus: u32,
    pub coefficient: u64,
    pub power: i32,
    pub decimals: u32,
}

impl Call {
    /// Which exported function it is.
    pub fn name(&self) -> &'static str {
        match self {
            Call::Check => "check",
            Call::FileBlock => "file_block",
            Call::TraceBlock { .. } => "trace_block",
            Call::StringCount { .. } => "string_count",
            Call::String { .. } => "string",
            Call::Strings { .. } => "strings",
            Call::Keyword { .. } => "keyword",
            Call::Value { .. } => "value",
            Call::Number { .. } => "number",
            Call::Double { .. } => "double",
            Call::Location { .. } => "location",
            Call::Integers { .. } => "integers",
            Call::Bits { .. } => "bits",
            Call::QuickTraceBlock { .. } => "quick_trace_block",
            Call::QuickStringCount { .. } => "quick_string_count",
            Call::QuickString { .. } => "quick_string",
            Call::QuickStrings { .. } => "quick_strings",
            Call::QuickKeyword { .. } => "quick_keyword",
            Call::QuickValue { .. } => "quick_value",
            Call::QuickNumber { .. } => "quick_number",
            Call::QuickDouble { .. } => "quick_double",
            Call::QuickLocation { .. } => "quick_location",
            Call::QuickIntegers { .. } => "quick_integers",
            Call::QuickBits { .. } => "quick_bits",
            Call::LenientCheck => "lenient_check",
            Call::LenientFileBlock => "lenient_file_block",
            Call::LenientTraceBlock { .. } => "lenient_trace_block",
            Call::LenientStringCount { .. } => "lenient_string_count",
            Call::LenientString { .. } => "lenient_string",
            Call::LenientStrings { .. } => "lenient_strings",
            Call::LenientKeyword { .. } => "lenient_keyword",
            Call::LenientValue { .. } => "lenient_value",
            Call::LenientNumber { .. } => "lenient_number",
            Call::LenientDouble { .. } => "lenient_double",
            Call::LenientLocation { .. } => "lenient_location",
            Call::LenientIntegers { .. } => "lenient_integers",
            Call::LenientBits { .. } => "lenient_bits",
            Call::ReadNumber => "read_number",
            Call::WriteNumber(_) => "write_number",
            Call::Start { .. } => "start",
            Call::StartSize { .. } => "start_size",
            Call::AddIntegers { .. } => "add_integers",
            Call::AddBits { .. } => "add_bits",
            Call::AddSize { .. } => "add_size",
        }
    }
}

/// The questions of a part that name a keyword.
pub fn keyword_questions(part: i32) -> [Call; 5] {
    [
        Call::Keyword { part },
        Call::Value { part },
        Call::Number { part },
        Call::Double { part },
        Call::Location { part },
    ]
}

/// The questions of a trace's samples.
pub fn sample_questions(trace: i32) -> [Call; 2] {
    [Call::Integers { trace }, Call::Bits { trace }]
}

impl Call {
    /// Whether a question of the whole file fills rows.
    pub fn fills(self) -> bool {
        matches!(
            self,
            Call::Strings { .. } | Call::Integers { .. } | Call::Bits { .. }
        )
    }

    /// Whether a call may change the buffer.
    pub fn writes(self) -> bool {
        matches!(
            self,
            Call::Start { .. } | Call::AddIntegers { .. } | Call::AddBits { .. }
        )
    }

    /// The part or the trace that a question names.
    pub fn part(self) -> Option<i32> {
        match self {
            Call::TraceBlock { trace: part }
            | Call::StringCount { part }
            | Call::String { part, .. }
            | Call::Strings { part }
            | Call::Keyword { part }
            | Call::Value { part }
            | Call::Number { part }
            | Call::Double { part }
            | Call::Location { part }
            | Call::Integers { trace: part }
            | Call::Bits { trace: part }
            | Call::QuickTraceBlock { trace: part }
            | Call::QuickStringCount { trace: part }
            | Call::QuickString { trace: part, .. }
            | Call::QuickStrings { trace: part }
            | Call::QuickKeyword { trace: part }
            | Call::QuickValue { trace: part }
            | Call::QuickNumber { trace: part }
            | Call::QuickDouble { trace: part }
            | Call::QuickLocation { trace: part }
            | Call::QuickIntegers { trace: part }
            | Call::QuickBits { trace: part }
            | Call::LenientTraceBlock { trace: part }
            | Call::LenientStringCount { part }
            | Call::LenientString { part, .. }
            | Call::LenientStrings { part }
            | Call::LenientKeyword { part }
            | Call::LenientValue { part }
            | Call::LenientNumber { part }
            | Call::LenientDouble { part }
            | Call::LenientLocation { part }
            | Call::LenientIntegers { trace: part }
            | Call::LenientBits { trace: part } => Some(part),
            _ => None,
        }
    }

    /// The question of one trace (document 02, §5) beside a question of the whole file: every
    /// question that names a part has one.
    pub fn quick(self) -> Option<Call> {
        Some(match self {
            Call::TraceBlock { trace } => Call::QuickTraceBlock { trace },
            Call::StringCount { part } => Call::QuickStringCount { trace: part },
            Call::String { part, index } => Call::QuickString { trace: part, index },
            Call::Strings { part } => Call::QuickStrings { trace: part },
            Call::Keyword { part } => Call::QuickKeyword { trace: part },
            Call::Value { part } => Call::QuickValue { trace: part },
            Call::Number { part } => Call::QuickNumber { trace: part },
            Call::Double { part } => Call::QuickDouble { trace: part },
            Call::Location { part } => Call::QuickLocation { trace: part },
            Call::Integers { trace } => Call::QuickIntegers { trace },
            Call::Bits { trace } => Call::QuickBits { trace },
            _ => return None,
        })
    }

    /// The lenient question (document 02, §11) beside a strict one of the whole file.
    pub fn lenient(self) -> Option<Call> {
        Some(match self {
            Call::Check => Call::LenientCheck,
            Call::FileBlock => Call::LenientFileBlock,
            Call::TraceBlock { trace } => Call::LenientTraceBlock { trace },
            Call::StringCount { part } => Call::LenientStringCount { part },
            Call::String { part, index } => Call::LenientString { part, index },
            Call::Strings { part } => Call::LenientStrings { part },
            Call::Keyword { part } => Call::LenientKeyword { part },
            Call::Value { part } => Call::LenientValue { part },
            Call::Number { part } => Call::LenientNumber { part },
            Call::Double { part } => Call::LenientDouble { part },
            Call::Location { part } => Call::LenientLocation { part },
            Call::Integers { trace } => Call::LenientIntegers { trace },
            Call::Bits { trace } => Call::LenientBits { trace },
            _ => return None,
        })
    }

    /// The strict question beside a lenient one.
    pub fn strict(self) -> Option<Call> {
        Some(match self {
            Call::LenientCheck => Call::Check,
            Call::LenientFileBlock => Call::FileBlock,
            Call::LenientTraceBlock { trace } => Call::TraceBlock { trace },
            Call::LenientStringCount { part } => Call::StringCount { part },
            Call::LenientString { part, index } => Call::String { part, index },
            Call::LenientStrings { part } => Call::Strings { part },
            Call::LenientKeyword { part } => Call::Keyword { part },
            Call::LenientValue { part } => Call::Value { part },
            Call::LenientNumber { part } => Call::Number { part },
            Call::LenientDouble { part } => Call::Double { part },
            Call::LenientLocation { part } => Call::Location { part },
            Call::LenientIntegers { trace } => Call::Integers { trace },
            Call::LenientBits { trace } => Call::Bits { trace },
            _ => return None,
        })
    }
}

/// Whoever answers calls: the archive, or the archive with a fault.
pub trait Library {
    fn call(&self, call: Call, length: usize, lent: &mut Lent) -> Answer;
}

/// The proved archive.
pub struct Archive;

/// Where each lent piece stands, with its size.
pub struct Places {
    pub buffer: (*mut u8, usize),
    pub key: (*mut u8, usize),
    pub sheet: (*mut u8, usize),
    pub integers: (*mut i32, usize),
    pub patterns: (*mut u64, usize),
    pub classes: (*mut u8, usize),
    pub strings: (*mut usize, usize),
    pub text: (*mut u8, usize),
}

impl Places {
    /// Where the pieces stand with a pattern around them.
    pub fn of(lent: &mut Lent) -> Places {
        Places {
            buffer: lent.buffer.place(),
            key: lent.key.place(),
            sheet: lent.sheet.place(),
            integers: lent.integers.place(),
            patterns: lent.patterns.place(),
            classes: lent.classes.place(),
            strings: lent.strings.place(),
            text: lent.text.place(),
        }
    }
}

impl Library for Archive {
    fn call(&self, call: Call, length: usize, lent: &mut Lent) -> Answer {
        let places = Places::of(lent);
        // SAFETY: each piece lives through the call, and no two overlap.
        unsafe { Archive::call_at(call, length, &places, &mut lent.beside_answer) }
    }
}

impl Archive {
    /// The call with its lent pieces where they are told.
    ///
    /// # Safety
    ///
    /// Each pointer leads to as many elements as the size beside it, all of them free to
    /// be read and written through the call, and no two pieces overlap.
    pub unsafe fn call_at(call: Call, length: usize, places: &Places, beside: &mut bool) -> Answer {
        let (buffer, size) = places.buffer;
        let (key, letters) = places.key;
        let (sheet, lines) = places.sheet;
        let (integers, ints) = places.integers;
        let (patterns, bits) = places.patterns;
        let (classes, count) = places.classes;
        let (strings, fours) = places.strings;
        let (text, room) = places.text;
        // SAFETY: as the caller promises.
        unsafe {
            match call {
                Call::Check => raw::seg2_check(buffer, size, length).into(),
                Call::FileBlock => answered(beside, |answer| {
                    raw::seg2_file_block(answer, buffer, size, length)
                }),
                Call::TraceBlock { trace } => answered(beside, |answer| {
                    raw::seg2_trace_block(answer, buffer, size, length, trace)
                }),
                Call::StringCount { part } => answered(beside, |answer| {
                    raw::seg2_string_count(answer, buffer, size, length, part)
                }),
                Call::String { part, index } => answered(beside, |answer| {
                    raw::seg2_string(answer, buffer, size, length, part, index)
                }),
                Call::Strings { part } => {
                    raw::seg2_strings(buffer, size, length, part, strings, fours).into()
                }
                Call::Keyword { part } => answered(beside, |answer| {
                    raw::seg2_keyword(answer, buffer, size, length, part, key, letters)
                }),
                Call::Value { part } => answered(beside, |answer| {
                    raw::seg2_value(answer, buffer, size, length, part, key, letters)
                }),
                Call::Number { part } => answered(beside, |answer| {
                    raw::seg2_number(answer, buffer, size, length, part, key, letters)
                }),
                Call::Double { part } => answered(beside, |answer| {
                    raw::seg2_double(answer, buffer, size, length, part, key, letters)
                }),
                Call::Location { part } => answered(beside, |answer| {
                    raw::seg2_location(answer, buffer, size, length, part, key, letters)
                }),
                Call::Integers { trace } => {
                    raw::seg2_integers(buffer, size, length, trace, integers, ints).into()
                }
                Call::Bits { trace } => {
                    raw::seg2_bits(buffer, size, length, trace, patterns, bits, classes, count)
                        .into()
                }
                Call::QuickTraceBlock { trace } => answered(beside, |answer| {
                    raw::seg2_quick_trace_block(answer, buffer, size, length, trace)
                }),
                Call::QuickStringCount { trace } => answered(beside, |answer| {
                    raw::seg2_quick_string_count(answer, buffer, size, length, trace)
                }),
                Call::QuickString { trace, index } => answered(beside, |answer| {
                    raw::seg2_quick_string(answer, buffer, size, length, trace, index)
                }),
                Call::QuickStrings { trace } => {
                    raw::seg2_quick_strings(buffer, size, length, trace, strings, fours).into()
                }
                Call::QuickKeyword { trace } => answered(beside, |answer| {
                    raw::seg2_quick_keyword(answer, buffer, size, length, trace, key, letters)
                }),
                Call::QuickValue { trace } => answered(beside, |answer| {
                    raw::seg2_quick_value(answer, buffer, size, length, trace, key, letters)
                }),
                Call::QuickNumber { trace } => answered(beside, |answer| {
                    raw::seg2_quick_number(answer, buffer, size, length, trace, key, letters)
                }),
                Call::QuickDouble { trace } => answered(beside, |answer| {
                    raw::seg2_quick_double(answer, buffer, size, length, trace, key, letters)
                }),
                Call::QuickLocation { trace } => answered(beside, |answer| {
                    raw::seg2_quick_location(answer, buffer, size, length, trace, key, letters)
                }),
                Call::QuickIntegers { trace } => {
                    raw::seg2_quick_integers(buffer, size, length, trace, integers, ints).into()
                }
                Call::QuickBits { trace } => raw::seg2_quick_bits(
                    buffer, size, length, trace, patterns, bits, classes, count,
                )
                .into(),
                Call::LenientCheck => answered(beside, |answer| {
                    raw::seg2_lenient_check(answer, buffer, size, length)
                }),
                Call::LenientFileBlock => answered(beside, |answer| {
                    raw::seg2_lenient_file_block(answer, buffer, size, length)
                }),
                Call::LenientTraceBlock { trace } => answered(beside, |answer| {
                    raw::seg2_lenient_trace_block(answer, buffer, size, length, trace)
                }),
                Call::LenientStringCount { part } => answered(beside, |answer| {
                    raw::seg2_lenient_string_count(answer, buffer, size, length, part)
                }),
                Call::LenientString { part, index } => answered(beside, |answer| {
                    raw::seg2_lenient_string(answer, buffer, size, length, part, index)
                }),
                Call::LenientStrings { part } => answered(beside, |answer| {
                    raw::seg2_lenient_strings(answer, buffer, size, length, part, strings, fours)
                }),
                Call::LenientKeyword { part } => answered(beside, |answer| {
                    raw::seg2_lenient_keyword(answer, buffer, size, length, part, key, letters)
                }),
                Call::LenientValue { part } => answered(beside, |answer| {
                    raw::seg2_lenient_value(answer, buffer, size, length, part, key, letters)
                }),
                Call::LenientNumber { part } => answered(beside, |answer| {
                    raw::seg2_lenient_number(answer, buffer, size, length, part, key, letters)
                }),
                Call::LenientDouble { part } => answered(beside, |answer| {
                    raw::seg2_lenient_double(answer, buffer, size, length, part, key, letters)
                }),
                Call::LenientLocation { part } => answered(beside, |answer| {
                    raw::seg2_lenient_location(answer, buffer, size, length, part, key, letters)
                }),
                Call::LenientIntegers { trace } => answered(beside, |answer| {
                    raw::seg2_lenient_integers(answer, buffer, size, length, trace, integers, ints)
                }),
                Call::LenientBits { trace } => answered(beside, |answer| {
                    raw::seg2_lenient_bits(
                        answer, buffer, size, length, trace, patterns, bits, classes, count,
                    )
                }),
                Call::ReadNumber => {
                    answered(beside, |answer| raw::seg2_read_number(answer, text, room))
                }
                Call::WriteNumber(Forged {
                    minus,
                    coefficient,
                    power,
                    decimals,
                }) => answered(beside, |answer| {
                    raw::seg2_write_number(answer, text, room, minus, coefficient, power, decimals)
                }),
                Call::Start { order, slots } => answered(beside, |answer| {
                    raw::seg2_start(answer, buffer, size, order, slots, sheet, lines)
                }),
                Call::StartSize { order, slots } => answered(beside, |answer| {
                    raw::seg2_start_size(answer, order, slots, sheet, lines)
                }),
                Call::AddSize { code, count } => answered(beside, |answer| {
                    raw::seg2_add_size(answer, buffer, size, length, sheet, lines, code, count)
                }),
                Call::AddIntegers { code } => answered(beside, |answer| {
                    raw::seg2_add_integers(
                        answer, buffer, size, length, sheet, lines, code, integers, ints,
                    )
                }),
                Call::AddBits { code } => answered(beside, |answer| {
                    raw::seg2_add_bits(
                        answer, buffer, size, length, sheet, lines, code, patterns, bits,
                    )
                }),
            }
        }
    }
}

/// An answer's place with a pattern around it.
#[repr(C)]
struct Around<T> {
    before: [u64; 4],
    answer: MaybeUninit<T>,
    behind: [u64; 4],
}

const BESIDE: [u64; 4] = [0x5E62_0001, u64::MAX, 0, 0xA5A5_A5A5_A5A5_A5A5];

/// The answer that a call leaves in the place it is given. A field that it does not
/// write keeps a pattern that no answer has.
fn answered<T: Into<Answer>>(beside: &mut bool, call: impl FnOnce(*mut T)) -> Answer {
    let mut around = Around {
        before: BESIDE,
        answer: MaybeUninit::<T>::uninit(),
        behind: BESIDE,
    };
    let start = std::ptr::addr_of_mut!(around).cast::<u8>();
    // SAFETY: the answer's own bytes; the pointer is the whole struct's, so that what is
    // written beside the answer is seen.
    unsafe {
        let place = start.add(offset_of!(Around<T>, answer)).cast::<T>();
        place.write_bytes(0xEE, 1);
        call(place);
        // Every field is an integer or a double, for which any bytes are a value.
        let answer = place.read();
        let (before, behind) = (
            start.cast::<[u64; 4]>().read(),
            start
                .add(offset_of!(Around<T>, behind))
                .cast::<[u64; 4]>()
                .read(),
        );
        *beside |= before != BESIDE || behind != BESIDE;
        answer.into()
    }
}
