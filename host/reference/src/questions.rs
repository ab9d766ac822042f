//! The questions about a file. "Every question checks the whole file first";
//! then 18, 33 and 32 in that order, part -1, place 0.

use crate::check::{check, File, Trace};
use crate::refusal::{refuse_if, Refusal, FILE_PART};
use crate::samples::{class_of_code_4, class_of_code_5, decode_bits, decode_integers};
use crate::strings::{parted_lines, Manner, StringPlace};
use crate::words::Order;
use std::ops::Range;

/// What the fixed part of the file block says.
#[derive(Clone, Debug, PartialEq, Eq)]
pub struct FileBlock {
    pub order: Order,
    pub m: u16,
    pub n: u16,
    pub string_terminator: Vec<u8>,
    pub line_terminator: Vec<u8>,
}

/// A file that a check has accepted, with the bytes that it stands in: what is asked of it is
/// the same in either manner, but for what its keywords count as.
#[derive(Clone, Copy, Debug)]
pub struct Checked<'a> {
    pub buffer: &'a [u8],
    pub file: &'a File,
    pub manner: Manner,
}

/// A file that the strict check has accepted.
fn strictly<'a>(buffer: &'a [u8], file: &'a File) -> Checked<'a> {
    Checked {
        buffer,
        file,
        manner: Manner::Strict,
    }
}

impl<'a> Checked<'a> {
    /// Byte order, M, N and the terminators.
    pub fn block(self) -> FileBlock {
        let file = self.file;
        FileBlock {
            order: file.order,
            m: file.m,
            n: file.n,
            string_terminator: file.string_terminator.clone(),
            line_terminator: file.line_terminator.clone(),
        }
    }

    /// Row 18: "no such trace".
    pub fn trace(self, trace: i64) -> Result<&'a Trace, Refusal> {
        usize::try_from(trace)
            .ok()
            .and_then(|index| self.file.traces.get(index))
            .ok_or(Refusal::file(18, 0))
    }

    /// Row 18: "(a keyword question also takes -1, the file)".
    pub fn strings(self, part: i64) -> Result<&'a [StringPlace], Refusal> {
        match part {
            FILE_PART => Ok(&self.file.strings),
            trace => Ok(&self.trace(trace)?.strings),
        }
    }

    /// The first string of a part with the keyword, `None` for a no. What is asked for is taken
    /// as given: what cannot be a keyword is a plain no, lower case too.
    pub fn find(self, part: i64, keyword: &[u8]) -> Result<Option<&'a StringPlace>, Refusal> {
        let counts_as =
            |string: &StringPlace| self.manner.keyword(&self.buffer[string.keyword.clone()]);
        let mut strings = self.strings(part)?.iter();
        Ok(strings.find(|string| counts_as(string) == keyword))
    }

    /// Where the value of the first string with the keyword stands; for a no the empty part at
    /// the start of the buffer.
    pub fn value(self, part: i64, keyword: &[u8]) -> Result<Range<usize>, Refusal> {
        let found = self.find(part, keyword)?;
        Ok(found.map_or(0..0, |string| string.value.clone()))
    }

    /// That value as it stands: letters are folded in keywords alone.
    pub fn text(self, part: i64, keyword: &[u8]) -> Result<&'a [u8], Refusal> {
        Ok(&self.buffer[self.value(part, keyword)?])
    }

    /// All strings of a part in a row, four numbers each.
    pub fn places(self, part: i64, row: &mut [usize]) -> Result<(), Refusal> {
        places_of(self.strings(part)?, row)
    }

    pub fn integers(self, trace: i64, row: &mut [i32]) -> Result<(), Refusal> {
        let trace = self.trace(trace)?;
        integers_asked(trace, row.len())?;
        read_integers(self.buffer, self.file.order, trace, row);
        Ok(())
    }

    pub fn bits(self, trace: i64, row: &mut [u64], classes: &mut [u8]) -> Result<(), Refusal> {
        let trace = self.trace(trace)?;
        bits_asked(trace, row.len(), classes.len())?;
        read_bits(self.buffer, self.file.order, trace, row, classes);
        Ok(())
    }
}

/// Byte order, M, N and the terminators.
pub fn file_block(buffer: &[u8], length: usize) -> Result<FileBlock, Refusal> {
    let file = check(buffer, length)?;
    Ok(strictly(buffer, &file).block())
}

/// Pointer, sizes, sample count, code and string places of one trace.
pub fn trace_block(buffer: &[u8], length: usize, trace: i64) -> Result<Trace, Refusal> {
    let file = check(buffer, length)?;
    strictly(buffer, &file).trace(trace).cloned()
}

/// How many strings a part has; part -1 is the file.
pub fn string_count(buffer: &[u8], length: usize, part: i64) -> Result<usize, Refusal> {
    let file = check(buffer, length)?;
    Ok(strictly(buffer, &file).strings(part)?.len())
}

/// The i-th string of a part, `None` when it has no so many.
pub fn string(
    buffer: &[u8],
    length: usize,
    part: i64,
    i: usize,
) -> Result<Option<StringPlace>, Refusal> {
    let file = check(buffer, length)?;
    Ok(strictly(buffer, &file).strings(part)?.get(i).cloned())
}

/// All strings of a part, in order, in one row: of each, where its keyword starts, how long it
/// is, where its value starts and how long that is. A row of another length than four times
/// their number is 32.
pub fn all_strings(
    buffer: &[u8],
    length: usize,
    part: i64,
    row: &mut [usize],
) -> Result<(), Refusal> {
    let file = check(buffer, length)?;
    strictly(buffer, &file).places(part, row)
}

/// What both keyword questions answer by: the first string of a part with the keyword, `None`
/// for a no.
pub fn keyword_string(
    buffer: &[u8],
    length: usize,
    part: i64,
    keyword: &[u8],
) -> Result<Option<StringPlace>, Refusal> {
    let file = check(buffer, length)?;
    Ok(strictly(buffer, &file).find(part, keyword)?.cloned())
}

/// "one answers yes, no or the refusal". What cannot be a keyword is a plain no.
pub fn keyword(buffer: &[u8], length: usize, part: i64, keyword: &[u8]) -> Result<bool, Refusal> {
    Ok(keyword_string(buffer, length, part, keyword)?.is_some())
}

/// "the other answers the value as the caller's own bytes, not a copy, and for a
/// no or a refusal the empty part at the start of the lent buffer": the range of
/// the value in the buffer.
pub fn keyword_value(buffer: &[u8], length: usize, part: i64, keyword: &[u8]) -> Range<usize> {
    let value = |file: File| strictly(buffer, &file).value(part, keyword);
    check(buffer, length).and_then(value).unwrap_or(0..0)
}

/// The lines of a NOTE's value, parted by whole line terminators from the left,
/// empty ones too.
pub fn note_lines<'a>(file: &File, value: &'a [u8]) -> Vec<&'a [u8]> {
    parted_lines(value, &file.line_terminator)
}

/// The samples of a trace of codes 1 to 3.
pub fn samples_as_integers(
    buffer: &[u8],
    length: usize,
    trace: i64,
    row: &mut [i32],
) -> Result<(), Refusal> {
    let file = check(buffer, length)?;
    strictly(buffer, &file).integers(trace, row)
}

/// The bit patterns of a trace of codes 4 and 5, and their classes. Either row
/// having another length than S is 32.
pub fn samples_as_bits(
    buffer: &[u8],
    length: usize,
    trace: i64,
    row: &mut [u64],
    classes: &mut [u8],
) -> Result<(), Refusal> {
    let file = check(buffer, length)?;
    strictly(buffer, &file).bits(trace, row, classes)
}

/// Row 32 of a row for these strings, then the row.
pub(crate) fn places_of(strings: &[StringPlace], row: &mut [usize]) -> Result<(), Refusal> {
    strings_asked(strings, row.len())?;
    for (four, string) in row.chunks_exact_mut(4).zip(strings) {
        four.copy_from_slice(&string.numbers());
    }
    Ok(())
}

/// Row 32 of a row for these strings.
pub(crate) fn strings_asked(strings: &[StringPlace], row: usize) -> Result<(), Refusal> {
    refuse_if(row != 4 * strings.len(), Refusal::file(32, 0))
}

/// Rows 33 and 32 of a question for integers.
pub(crate) fn integers_asked(trace: &Trace, row: usize) -> Result<(), Refusal> {
    refuse_if(!matches!(trace.code, 1..=3), Refusal::file(33, 0))?;
    refuse_if(!is_count(row, trace), Refusal::file(32, 0))
}

/// Rows 33 and 32 of a question for bits.
pub(crate) fn bits_asked(trace: &Trace, row: usize, classes: usize) -> Result<(), Refusal> {
    refuse_if(!matches!(trace.code, 4 | 5), Refusal::file(33, 0))?;
    refuse_if(!is_count(row, trace), Refusal::file(32, 0))?;
    refuse_if(!is_count(classes, trace), Refusal::file(32, 0))
}

/// The samples, where [`integers_asked`] refuses nothing.
pub(crate) fn read_integers(buffer: &[u8], order: Order, trace: &Trace, row: &mut [i32]) {
    let samples = decode_integers(trace.code, order, data_of(buffer, trace));
    row.copy_from_slice(&samples.unwrap_or_default()[..row.len()]);
}

/// The patterns and their classes, where [`bits_asked`] refuses nothing.
pub(crate) fn read_bits(
    buffer: &[u8],
    order: Order,
    trace: &Trace,
    row: &mut [u64],
    classes: &mut [u8],
) {
    let samples = decode_bits(trace.code, order, data_of(buffer, trace));
    let class_of = match trace.code {
        4 => class_of_code_4,
        _ => class_of_code_5,
    };
    row.copy_from_slice(&samples.unwrap_or_default()[..row.len()]);
    for (class, &bits) in classes.iter_mut().zip(row.iter()) {
        *class = class_of(bits);
    }
}

/// "The sample reader is given the data block alone, out of the middle of the
/// file": D bytes from p+B, which rows 10 and 11 have shown to lie in the file.
fn data_of<'a>(buffer: &'a [u8], trace: &Trace) -> &'a [u8] {
    &buffer[trace.data_range()]
}

/// Row 32: "an output row's length is not S".
fn is_count(length: usize, trace: &Trace) -> bool {
    length as u64 == u64::from(trace.s)
}
