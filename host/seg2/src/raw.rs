//! The exported functions as they are: what `include/seg2.h` declares, in Rust. The
//! answers' fields have the header's names, as those of `crates/face`,
//! `crates/face_values` and `crates/face_lenient` have.
//!
//! A slice goes as its pointer and its size, one behind the other. A struct of more
//! than 16 bytes comes back through a place that is the first argument, on x86-64 and
//! on Arm alike (docs/DECISIONS.md), so it is declared so and not as a result.
//!
//! Nothing here is safe to call without care; the rest of the crate is.

use crate::Refusal;

macro_rules! answer {
    ($(#[$said:meta])* $name:ident { $($field:ident: $kind:ty),* $(,)? }) => {
        $(#[$said])*
        #[repr(C)]
        #[derive(Clone, Copy, Debug, PartialEq)]
        pub struct $name {
            /// The refusal's number in the table, 0 for none.
            pub number: u32,
            /// The refusal's part: -1 for the file, else the trace.
            pub part: i32,
            /// The refusal's place.
            pub place: usize,
            $(#[allow(missing_docs)] pub $field: $kind,)*
        }

        impl $name {
            /// The refusal, if there is one, else the answer.
            pub fn told(self) -> Result<$name, Refusal> {
                if self.number == 0 {
                    return Ok(self);
                }
                Err(Refusal {
                    number: self.number,
                    part: self.part,
                    place: self.place,
                })
            }
        }
    };
}

answer!(
    /// No value beside the refusal.
    Verdict {}
);
answer!(
    /// Order (0 low first, 1 high first), M, N, lengths of the string and the line terminator.
    File {
        order: u32,
        pointer_room: usize,
        trace_count: usize,
        string_terminator_size: usize,
        line_terminator_size: usize,
    }
);
answer!(
    /// Start of the block, B, D, S, format code.
    Trace { start: usize, block_size: usize, data_size: usize, sample_count: usize, format_code: u32 }
);
answer!(
    /// How many there are.
    Count { count: usize }
);
answer!(
    /// Whether it is there; start and length of keyword and value in the buffer.
    Text { found: u32, key_start: usize, key_length: usize, value_start: usize, value_length: usize }
);
answer!(
    /// Whether it is there.
    Keyword { found: u32 }
);
answer!(
    /// Start and length of a value in the buffer.
    Value { value_start: usize, value_length: usize }
);
answer!(
    /// Sign (1 minus), power of ten, coefficient, how many digits stood after the point.
    Number { minus: u32, power: i32, coefficient: u64, decimals: u32 }
);
answer!(
    /// A double.
    Double { value: f64 }
);
answer!(
    /// How many values, the values, and how many digits stood after the point of each.
    Location { count: u32, x: f64, y: f64, z: f64, x_decimals: u32, y_decimals: u32, z_decimals: u32 }
);
answer!(
    /// The image's new length, or the length of a number's text.
    Length { length: usize }
);

/// A lenient answer, and beside it the strict check's own first row, or no refusal where the
/// file keeps the rules. The second stands there whatever the first is.
#[repr(C)]
#[derive(Clone, Copy, Debug, PartialEq)]
pub struct Lenient<A> {
    /// The answer of the lenient reading, or its refusal.
    pub answer: A,
    /// The verdict of the strict check.
    pub strict: Verdict,
}

#[rustfmt::skip]
#[allow(missing_docs)]
extern "C" {
    pub fn seg2_check(buffer: *const u8, size: usize, length: usize) -> Verdict;
    pub fn seg2_file_block(answer: *mut File, buffer: *const u8, size: usize, length: usize);
    pub fn seg2_trace_block(answer: *mut Trace, buffer: *const u8, size: usize, length: usize, trace: i32);
    pub fn seg2_string_count(answer: *mut Count, buffer: *const u8, size: usize, length: usize, part: i32);
    pub fn seg2_string(answer: *mut Text, buffer: *const u8, size: usize, length: usize, part: i32, index: usize);
    pub fn seg2_strings(buffer: *const u8, size: usize, length: usize, part: i32, row: *mut usize, row_size: usize) -> Verdict;
    pub fn seg2_keyword(answer: *mut Keyword, buffer: *const u8, size: usize, length: usize, part: i32, key: *const u8, key_size: usize);
    pub fn seg2_value(answer: *mut Value, buffer: *const u8, size: usize, length: usize, part: i32, key: *const u8, key_size: usize);
    pub fn seg2_number(answer: *mut Number, buffer: *const u8, size: usize, length: usize, part: i32, key: *const u8, key_size: usize);
    pub fn seg2_double(answer: *mut Double, buffer: *const u8, size: usize, length: usize, part: i32, key: *const u8, key_size: usize);
    pub fn seg2_location(answer: *mut Location, buffer: *const u8, size: usize, length: usize, part: i32, key: *const u8, key_size: usize);
    pub fn seg2_integers(buffer: *const u8, size: usize, length: usize, trace: i32, row: *mut i32, row_size: usize) -> Verdict;
    pub fn seg2_bits(buffer: *const u8, size: usize, length: usize, trace: i32, row: *mut u64, row_size: usize, classes: *mut u8, classes_size: usize) -> Verdict;
    pub fn seg2_quick_trace_block(answer: *mut Trace, buffer: *const u8, size: usize, length: usize, trace: i32);
    pub fn seg2_quick_string_count(answer: *mut Count, buffer: *const u8, size: usize, length: usize, trace: i32);
    pub fn seg2_quick_string(answer: *mut Text, buffer: *const u8, size: usize, length: usize, trace: i32, index: usize);
    pub fn seg2_quick_strings(buffer: *const u8, size: usize, length: usize, trace: i32, row: *mut usize, row_size: usize) -> Verdict;
    pub fn seg2_quick_keyword(answer: *mut Keyword, buffer: *const u8, size: usize, length: usize, trace: i32, key: *const u8, key_size: usize);
    pub fn seg2_quick_value(answer: *mut Value, buffer: *const u8, size: usize, length: usize, trace: i32, key: *const u8, key_size: usize);
    pub fn seg2_quick_number(answer: *mut Number, buffer: *const u8, size: usize, length: usize, trace: i32, key: *const u8, key_size: usize);
    pub fn seg2_quick_double(answer: *mut Double, buffer: *const u8, size: usize, length: usize, trace: i32, key: *const u8, key_size: usize);
    pub fn seg2_quick_location(answer: *mut Location, buffer: *const u8, size: usize, length: usize, trace: i32, key: *const u8, key_size: usize);
    pub fn seg2_quick_integers(buffer: *const u8, size: usize, length: usize, trace: i32, row: *mut i32, row_size: usize) -> Verdict;
    pub fn seg2_quick_bits(buffer: *const u8, size: usize, length: usize, trace: i32, row: *mut u64, row_size: usize, classes: *mut u8, classes_size: usize) -> Verdict;
    pub fn seg2_lenient_check(answer: *mut Lenient<Verdict>, buffer: *const u8, size: usize, length: usize);
    pub fn seg2_lenient_file_block(answer: *mut Lenient<File>, buffer: *const u8, size: usize, length: usize);
    pub fn seg2_lenient_trace_block(answer: *mut Lenient<Trace>, buffer: *const u8, size: usize, length: usize, trace: i32);
    pub fn seg2_lenient_string_count(answer: *mut Lenient<Count>, buffer: *const u8, size: usize, length: usize, part: i32);
    pub fn seg2_lenient_string(answer: *mut Lenient<Text>, buffer: *const u8, size: usize, length: usize, part: i32, index: usize);
    pub fn seg2_lenient_strings(answer: *mut Lenient<Verdict>, buffer: *const u8, size: usize, length: usize, part: i32, row: *mut usize, row_size: usize);
    pub fn seg2_lenient_keyword(answer: *mut Lenient<Keyword>, buffer: *const u8, size: usize, length: usize, part: i32, key: *const u8, key_size: usize);
    pub fn seg2_lenient_value(answer: *mut Lenient<Value>, buffer: *const u8, size: usize, length: usize, part: i32, key: *const u8, key_size: usize);
    pub fn seg2_lenient_number(answer: *mut Lenient<Number>, buffer: *const u8, size: usize, length: usize, part: i32, key: *const u8, key_size: usize);
    pub fn seg2_lenient_double(answer: *mut Lenient<Double>, buffer: *const u8, size: usize, length: usize, part: i32, key: *const u8, key_size: usize);
    pub fn seg2_lenient_location(answer: *mut Lenient<Location>, buffer: *const u8, size: usize, length: usize, part: i32, key: *const u8, key_size: usize);
    pub fn seg2_lenient_integers(answer: *mut Lenient<Verdict>, buffer: *const u8, size: usize, length: usize, trace: i32, row: *mut i32, row_size: usize);
    pub fn seg2_lenient_bits(answer: *mut Lenient<Verdict>, buffer: *const u8, size: usize, length: usize, trace: i32, row: *mut u64, row_size: usize, classes: *mut u8, classes_size: usize);
    pub fn seg2_read_number(answer: *mut Number, text: *const u8, size: usize);
    pub fn seg2_write_number(answer: *mut Length, text: *mut u8, size: usize, minus: u32, coefficient: u64, power: i32, decimals: u32);
    pub fn seg2_start(answer: *mut Length, buffer: *mut u8, size: usize, order: u32, slots: u32, sheet: *const u8, sheet_size: usize);
    pub fn seg2_start_size(answer: *mut Length, order: u32, slots: u32, sheet: *const u8, sheet_size: usize);
    pub fn seg2_add_integers(answer: *mut Length, buffer: *mut u8, size: usize, length: usize, sheet: *const u8, sheet_size: usize, code: u32, row: *const i32, row_size: usize);
    pub fn seg2_add_bits(answer: *mut Length, buffer: *mut u8, size: usize, length: usize, sheet: *const u8, sheet_size: usize, code: u32, row: *const u64, row_size: usize);
    pub fn seg2_add_size(answer: *mut Length, buffer: *const u8, size: usize, length: usize, sheet: *const u8, sheet_size: usize, code: u32, sample_count: usize);
}
