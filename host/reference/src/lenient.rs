//! Older recorders: document 02, §11. "Add a lenient reading beside the strict one: it takes
//! lower-case keyword letters as upper case, accepts any order and repeats, and ends a list
//! where no byte of the area is left."
//!
//! It is the strict reading in another [`Manner`]. "Refusals: 14 to 16 as in 01 without the
//! three points named; 17 and 34 are never given here." Nothing else is forgiven.

use crate::check::{check, check_in, File, Trace};
use crate::number::{double, location, number, Location, Number};
use crate::questions::{Checked, FileBlock};
use crate::refusal::Refusal;
use crate::strings::{Manner, StringPlace};
use std::ops::Range;

/// What a lenient question answers: "it tells the first strict refusal beside its own answer".
#[derive(Clone, Debug, PartialEq, Eq)]
pub struct Lenient<T> {
    /// The lenient check's refusal, the question's own, or what was asked for.
    pub answer: Result<T, Refusal>,
    /// The strict check's refusal of the same file, also behind a refusal of the question;
    /// none where the strict check accepts it.
    pub strict: Option<Refusal>,
}

/// A question of a file that the lenient check accepts, and the strict check's row beside it.
fn ask<T>(
    buffer: &[u8],
    length: usize,
    question: impl FnOnce(Checked) -> Result<T, Refusal>,
) -> Lenient<T> {
    let manner = Manner::Lenient;
    let answer = check_in(buffer, length, manner).and_then(|file| {
        question(Checked {
            buffer,
            file: &file,
            manner,
        })
    });
    Lenient {
        answer,
        strict: check(buffer, length).err(),
    }
}

/// Rows 1 to 16, as the lenient reading has them.
pub fn lenient_check(buffer: &[u8], length: usize) -> Lenient<File> {
    ask(buffer, length, |file| Ok(file.file.clone()))
}

/// As [`crate::file_block`].
pub fn lenient_file_block(buffer: &[u8], length: usize) -> Lenient<FileBlock> {
    ask(buffer, length, |file| Ok(file.block()))
}

/// As [`crate::trace_block`].
pub fn lenient_trace_block(buffer: &[u8], length: usize, trace: i64) -> Lenient<Trace> {
    ask(buffer, length, |file| file.trace(trace).cloned())
}

/// As [`crate::string_count`]: repeats count each.
pub fn lenient_string_count(buffer: &[u8], length: usize, part: i64) -> Lenient<usize> {
    ask(buffer, length, |file| Ok(file.strings(part)?.len()))
}

/// As [`crate::string`], in the order in which they stand.
pub fn lenient_string(
    buffer: &[u8],
    length: usize,
    part: i64,
    i: usize,
) -> Lenient<Option<StringPlace>> {
    ask(buffer, length, |file| {
        Ok(file.strings(part)?.get(i).cloned())
    })
}

/// As [`crate::all_strings`].
pub fn lenient_strings(buffer: &[u8], length: usize, part: i64, row: &mut [usize]) -> Lenient<()> {
    ask(buffer, length, |file| file.places(part, row))
}

/// As [`crate::keyword_string`]: the first of repeats, whatever letters it is written in.
pub fn lenient_keyword_string(
    buffer: &[u8],
    length: usize,
    part: i64,
    keyword: &[u8],
) -> Lenient<Option<StringPlace>> {
    ask(buffer, length, |file| {
        Ok(file.find(part, keyword)?.cloned())
    })
}

/// As [`crate::keyword`].
pub fn lenient_keyword(buffer: &[u8], length: usize, part: i64, keyword: &[u8]) -> Lenient<bool> {
    ask(buffer, length, |file| {
        Ok(file.find(part, keyword)?.is_some())
    })
}

/// Where the value stands, `0..0` for a no. As [`crate::keyword_value`], with the refusal.
pub fn lenient_value(
    buffer: &[u8],
    length: usize,
    part: i64,
    keyword: &[u8],
) -> Lenient<Range<usize>> {
    ask(buffer, length, |file| file.value(part, keyword))
}

/// The value as a number. An absent keyword's value is empty: no number, 20.
pub fn lenient_number(buffer: &[u8], length: usize, part: i64, keyword: &[u8]) -> Lenient<Number> {
    ask(buffer, length, |file| number(file.text(part, keyword)?))
}

/// The value as a double.
pub fn lenient_double(buffer: &[u8], length: usize, part: i64, keyword: &[u8]) -> Lenient<f64> {
    ask(buffer, length, |file| double(file.text(part, keyword)?))
}

/// The value as a location. An absent keyword's value is empty: neither one value nor three,
/// 23.
pub fn lenient_location(
    buffer: &[u8],
    length: usize,
    part: i64,
    keyword: &[u8],
) -> Lenient<Location> {
    ask(buffer, length, |file| location(file.text(part, keyword)?))
}

/// As [`crate::samples_as_integers`].
pub fn lenient_integers(buffer: &[u8], length: usize, trace: i64, row: &mut [i32]) -> Lenient<()> {
    ask(buffer, length, |file| file.integers(trace, row))
}

/// As [`crate::samples_as_bits`].
pub fn lenient_bits(
    buffer: &[u8],
    length: usize,
    trace: i64,
    row: &mut [u64],
    classes: &mut [u8],
) -> Lenient<()> {
    ask(buffer, length, |file| file.bits(trace, row, classes))
}
