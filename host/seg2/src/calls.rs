//! The calls, the only place of this crate with unsafe code: a slice becomes its
//! pointer and its size.
//!
//! Why each call is sound: an exported function asks no more than that each pointer
//! leads to as many elements as the size beside it says, for the time of the call, and
//! that what it writes overlaps nothing else that it is lent. A slice has all of that: it
//! is never null (an empty one has a dangling address, which is allowed), it is aligned,
//! and Rust lends a `&mut` to nobody else meanwhile. All numbers are allowed.
#![allow(unsafe_code)]

use crate::raw::{self, Lenient};
use std::mem::MaybeUninit;

/// An answer of more than 16 bytes, which the call writes to the place it is given.
fn answered<A>(call: impl FnOnce(*mut A)) -> A {
    let mut answer = MaybeUninit::<A>::uninit();
    call(answer.as_mut_ptr());
    // SAFETY: every exported function writes each field of its answer, also for a refusal
    unsafe { answer.assume_init() }
}

pub fn check(buffer: &[u8], length: usize) -> raw::Verdict {
    // SAFETY: pointer and size of one slice
    unsafe { raw::seg2_check(buffer.as_ptr(), buffer.len(), length) }
}

pub fn file_block(buffer: &[u8], length: usize) -> raw::File {
    // SAFETY: a place for the answer; pointer and size of one slice
    answered(|a| unsafe { raw::seg2_file_block(a, buffer.as_ptr(), buffer.len(), length) })
}

pub fn lenient_check(buffer: &[u8], length: usize) -> Lenient<raw::Verdict> {
    // SAFETY: a place for the answer; pointer and size of one slice
    answered(|a| unsafe { raw::seg2_lenient_check(a, buffer.as_ptr(), buffer.len(), length) })
}

pub fn lenient_file_block(buffer: &[u8], length: usize) -> Lenient<raw::File> {
    // SAFETY: a place for the answer; pointer and size of one slice
    answered(|a| unsafe { raw::seg2_lenient_file_block(a, buffer.as_ptr(), buffer.len(), length) })
}

// A full question, its quick form and its lenient form have the same arguments. The quick one has the same answer, and its
// part is a trace; the lenient one has the strict verdict beside the same answer.

/// The questions of a part differ in their answer, and one of them is asked by an index.
macro_rules! part_question {
    ($name:ident, $exported:ident, $answer:ty $(, $index:ident)?) => {
        pub fn $name(buffer: &[u8], length: usize, part: i32 $(, $index: usize)?) -> $answer {
            let (bytes, size) = (buffer.as_ptr(), buffer.len());
            // SAFETY: a place for the answer; pointer and size of one slice
            answered(|a| unsafe { raw::$exported(a, bytes, size, length, part $(, $index)?) })
        }
    };
}

part_question!(trace_block, seg2_trace_block, raw::Trace);
part_question!(string_count, seg2_string_count, raw::Count);
part_question!(string, seg2_string, raw::Text, index);
part_question!(quick_trace_block, seg2_quick_trace_block, raw::Trace);
part_question!(quick_string_count, seg2_quick_string_count, raw::Count);
part_question!(quick_string, seg2_quick_string, raw::Text, index);
part_question!(
    lenient_trace_block,
    seg2_lenient_trace_block,
    Lenient<raw::Trace>
);
part_question!(
    lenient_string_count,
    seg2_lenient_string_count,
    Lenient<raw::Count>
);
part_question!(
    lenient_string,
    seg2_lenient_string,
    Lenient<raw::Text>,
    index
);

/// The keyword questions differ in their answer alone.
macro_rules! keyword_question {
    ($name:ident, $exported:ident, $answer:ty) => {
        pub fn $name(buffer: &[u8], length: usize, part: i32, key: &[u8]) -> $answer {
            let (bytes, size) = (buffer.as_ptr(), buffer.len());
            let (letters, count) = (key.as_ptr(), key.len());
            // SAFETY: a place for the answer; pointer and size of two slices
            answered(|a| unsafe { raw::$exported(a, bytes, size, length, part, letters, count) })
        }
    };
}

keyword_question!(keyword, seg2_keyword, raw::Keyword);
keyword_question!(value, seg2_value, raw::Value);
keyword_question!(number, seg2_number, raw::Number);
keyword_question!(double, seg2_double, raw::Double);
keyword_question!(location, seg2_location, raw::Location);
keyword_question!(quick_keyword, seg2_quick_keyword, raw::Keyword);
keyword_question!(quick_value, seg2_quick_value, raw::Value);
keyword_question!(quick_number, seg2_quick_number, raw::Number);
keyword_question!(quick_double, seg2_quick_double, raw::Double);
keyword_question!(quick_location, seg2_quick_location, raw::Location);
keyword_question!(lenient_keyword, seg2_lenient_keyword, Lenient<raw::Keyword>);
keyword_question!(lenient_value, seg2_lenient_value, Lenient<raw::Value>);
keyword_question!(lenient_number, seg2_lenient_number, Lenient<raw::Number>);
keyword_question!(lenient_double, seg2_lenient_double, Lenient<raw::Double>);
keyword_question!(
    lenient_location,
    seg2_lenient_location,
    Lenient<raw::Location>
);

/// The questions that fill one row differ in its elements alone.
macro_rules! row_question {
    ($name:ident, $exported:ident, $element:ty) => {
        pub fn $name(
            buffer: &[u8],
            length: usize,
            part: i32,
            row: &mut [$element],
        ) -> raw::Verdict {
            let (bytes, size) = (buffer.as_ptr(), buffer.len());
            let (to, count) = (row.as_mut_ptr(), row.len());
            // SAFETY: pointer and size of two slices, the second lent for writing
            unsafe { raw::$exported(bytes, size, length, part, to, count) }
        }
    };
}

row_question!(integers, seg2_integers, i32);
row_question!(strings, seg2_strings, usize);
row_question!(quick_integers, seg2_quick_integers, i32);
row_question!(quick_strings, seg2_quick_strings, usize);

/// Two verdicts are too long to be returned: a place for both comes first.
macro_rules! lenient_row_question {
    ($name:ident, $exported:ident, $element:ty) => {
        pub fn $name(
            buffer: &[u8],
            length: usize,
            part: i32,
            row: &mut [$element],
        ) -> Lenient<raw::Verdict> {
            let (bytes, size) = (buffer.as_ptr(), buffer.len());
            let (to, count) = (row.as_mut_ptr(), row.len());
            // SAFETY: a place for the answer; pointer and size of two slices, the second lent for writing
            answered(|a| unsafe { raw::$exported(a, bytes, size, length, part, to, count) })
        }
    };
}

lenient_row_question!(lenient_integers, seg2_lenient_integers, i32);
lenient_row_question!(lenient_strings, seg2_lenient_strings, usize);

/// The patterns and their classes go into two rows.
macro_rules! bits_question {
    ($name:ident, $exported:ident) => {
        pub fn $name(
            buffer: &[u8],
            length: usize,
            trace: i32,
            row: &mut [u64],
            classes: &mut [u8],
        ) -> raw::Verdict {
            let (bytes, size) = (buffer.as_ptr(), buffer.len());
            let (to, count) = (row.as_mut_ptr(), row.len());
            let (class, class_count) = (classes.as_mut_ptr(), classes.len());
            // SAFETY: pointer and size of three slices, the last two lent for writing
            unsafe { raw::$exported(bytes, size, length, trace, to, count, class, class_count) }
        }
    };
}

bits_question!(bits, seg2_bits);
bits_question!(quick_bits, seg2_quick_bits);

pub fn lenient_bits(
    buffer: &[u8],
    length: usize,
    trace: i32,
    row: &mut [u64],
    classes: &mut [u8],
) -> Lenient<raw::Verdict> {
    let (bytes, size) = (buffer.as_ptr(), buffer.len());
    let (to, count) = (row.as_mut_ptr(), row.len());
    let (class, class_count) = (classes.as_mut_ptr(), classes.len());
    // SAFETY: a place for the answer; pointer and size of three slices, the last two lent for writing
    answered(|a| unsafe {
        raw::seg2_lenient_bits(a, bytes, size, length, trace, to, count, class, class_count)
    })
}

pub fn read_number(text: &[u8]) -> raw::Number {
    // SAFETY: a place for the answer; pointer and size of one slice
    answered(|a| unsafe { raw::seg2_read_number(a, text.as_ptr(), text.len()) })
}

pub fn write_number(
    text: &mut [u8],
    minus: u32,
    coefficient: u64,
    power: i32,
    decimals: u32,
) -> raw::Length {
    let (to, size) = (text.as_mut_ptr(), text.len());
    // SAFETY: a place for the answer; pointer and size of one slice, lent for writing
    answered(|a| unsafe {
        raw::seg2_write_number(a, to, size, minus, coefficient, power, decimals)
    })
}

pub fn start(buffer: &mut [u8], order: u32, slots: u32, sheet: &[u8]) -> raw::Length {
    let (image, size) = (buffer.as_mut_ptr(), buffer.len());
    let (text, text_size) = (sheet.as_ptr(), sheet.len());
    // SAFETY: a place for the answer; pointer and size of two slices, the first lent for writing
    answered(|a| unsafe { raw::seg2_start(a, image, size, order, slots, text, text_size) })
}

pub fn start_size(order: u32, slots: u32, sheet: &[u8]) -> raw::Length {
    let (text, text_size) = (sheet.as_ptr(), sheet.len());
    // SAFETY: a place for the answer; pointer and size of one slice
    answered(|a| unsafe { raw::seg2_start_size(a, order, slots, text, text_size) })
}

pub fn add_size(
    buffer: &[u8],
    length: usize,
    sheet: &[u8],
    code: u32,
    count: usize,
) -> raw::Length {
    let (image, size) = (buffer.as_ptr(), buffer.len());
    let (text, text_size) = (sheet.as_ptr(), sheet.len());
    // SAFETY: a place for the answer; pointer and size of two slices
    answered(|a| unsafe {
        raw::seg2_add_size(a, image, size, length, text, text_size, code, count)
    })
}

/// The two additions differ in their samples alone.
macro_rules! addition {
    ($name:ident, $exported:ident, $sample:ty) => {
        pub fn $name(
            buffer: &mut [u8],
            length: usize,
            sheet: &[u8],
            code: u32,
            row: &[$sample],
        ) -> raw::Length {
            let (image, size) = (buffer.as_mut_ptr(), buffer.len());
            let (text, text_size) = (sheet.as_ptr(), sheet.len());
            let (from, count) = (row.as_ptr(), row.len());
            // SAFETY: a place for the answer; pointer and size of three slices, the first lent for writing
            answered(|a| unsafe {
                raw::$exported(a, image, size, length, text, text_size, code, from, count)
            })
        }
    };
}

addition!(add_integers, seg2_add_integers, i32);
addition!(add_bits, seg2_add_bits, u64);
