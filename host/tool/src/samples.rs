//! samples: the samples of a trace, or of all.

use crate::files::{self, print};
use crate::options::{whole, Options};
use crate::stop::{Answer, Stop};
use crate::words::{no_such_trace, Told};
use seg2::{code, File, Refusal, Trace};
use std::ffi::OsStr;

/// A trace's samples, one a line, or all traces' as a table.
pub fn run(given: &Options) -> Answer {
    let bits = given.has("--bits");
    if given.has("--all") {
        let [name] = given.exactly()?;
        let bytes = files::shot(name)?;
        let file = open(name, &bytes)?;
        return table(name, &file, bits);
    }
    let [name, trace] = given.exactly()?;
    let index: usize = whole(trace, "trace's number: they count from 0")?;
    let bytes = files::shot(name)?;
    let file = open(name, &bytes)?;
    let trace = trace_of(name, &file, index)?;
    let lines = printed(name, &trace, bits)?.all();
    print(lines.as_bytes())
}

/// An accepted file, or what is wrong with it.
pub fn open<'a>(name: &OsStr, bytes: &'a [u8]) -> Answer<File<'a>> {
    File::open(bytes).map_err(|refusal| Told::of_file(name, bytes, &refusal).stop())
}

/// A trace, or which ones there are.
pub fn trace_of<'a>(name: &OsStr, file: &File<'a>, index: usize) -> Answer<Trace<'a>> {
    file.trace(index).map_err(|refusal| {
        let found = no_such_trace(index, file.trace_count());
        Told::new(name, &refusal, found).stop()
    })
}

/// A column for each trace: first the numbers of the traces, then a line for each sample.
fn table(name: &OsStr, file: &File, bits: bool) -> Answer {
    let traces: Vec<Trace> = file.traces().collect();
    let columns = traces.iter().map(|trace| printed(name, trace, bits));
    let columns = columns.collect::<Answer<Vec<Column>>>()?;
    let heads: Vec<String> = (0..columns.len()).map(|trace| trace.to_string()).collect();
    print((heads.join(",") + "\n").as_bytes())?;
    let longest = columns.iter().map(Column::len).max().unwrap_or(0);
    let mut lines = String::new();
    for i in 0..longest {
        let cells: Vec<String> = columns.iter().map(|column| column.cell(i)).collect();
        lines += &cells.join(",");
        lines.push('\n');
        // some lines at a time, so that who has had enough is noticed
        if lines.len() > 1 << 16 || i + 1 == longest {
            print(lines.as_bytes())?;
            lines.clear();
        }
    }
    Ok(0)
}

/// The samples of a trace as they are printed.
enum Column {
    Integers(Vec<i32>),
    Floats(Vec<u64>),
    Doubles(Vec<u64>),
    /// Patterns, with so many hexadecimal digits.
    Patterns(Vec<u64>, usize),
}

fn printed(name: &OsStr, trace: &Trace, bits: bool) -> Answer<Column> {
    let told = |refusal: Refusal| kind(name, trace, &refusal);
    if trace.is_integers() && !bits {
        return Ok(Column::Integers(trace.integers().map_err(told)?));
    }
    let patterns = trace.bits().map_err(told)?.patterns;
    Ok(match (trace.code(), bits) {
        (code::FLOAT_32, true) => Column::Patterns(patterns, 8),
        (_, true) => Column::Patterns(patterns, 16),
        // the shortest decimal of 32 bits is shorter than that of the same double
        (code::FLOAT_32, _) => Column::Floats(patterns),
        _ => Column::Doubles(patterns),
    })
}

fn kind(name: &OsStr, trace: &Trace, refusal: &Refusal) -> Stop {
    let found = format!("trace {} has code {}", trace.index(), trace.code());
    Told::new(name, refusal, found).stop()
}

impl Column {
    fn len(&self) -> usize {
        match self {
            Column::Integers(row) => row.len(),
            Column::Floats(row) | Column::Doubles(row) | Column::Patterns(row, _) => row.len(),
        }
    }

    /// A sample; nothing past the last.
    fn cell(&self, i: usize) -> String {
        let said = match self {
            Column::Integers(row) => row.get(i).map(i32::to_string),
            Column::Floats(row) => row.get(i).map(|&p| decimal(f32::from_bits(p as u32))),
            Column::Doubles(row) => row.get(i).map(|&p| decimal(f64::from_bits(p))),
            Column::Patterns(row, digits) => row
                .get(i)
                .map(|p| format!("0x{p:0width$x}", width = digits)),
        };
        said.unwrap_or_default()
    }

    fn all(&self) -> String {
        (0..self.len()).map(|i| self.cell(i) + "\n").collect()
    }
}

/// The shortest decimal that reads back as this number; `nan`, `inf` and `-inf` by name.
pub fn decimal(number: impl std::fmt::Debug) -> String {
    format!("{number:?}").to_lowercase()
}

#[cfg(test)]
mod tests {
    use super::*;

    #[test]
    fn decimals_are_short_and_named() {
        assert_eq!(decimal(0.1_f32), "0.1");
        assert_eq!(decimal(1.0_f64), "1.0");
        assert_eq!(decimal(1e38_f32), "1e38");
        assert_eq!(decimal(-0.0_f32), "-0.0");
        assert_eq!(decimal(f32::NAN), "nan");
        assert_eq!(decimal(f64::NEG_INFINITY), "-inf");
        assert_eq!(decimal(f32::from_bits(1)), "1e-45");
    }
}
