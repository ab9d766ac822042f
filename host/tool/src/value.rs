//! value: the value of a keyword.

use crate::files::{self, print, told_name};
use crate::options::{whole, Options};
use crate::samples::{decimal, open, trace_of};
use crate::stop::{refused, unusable, Answer, Stop};
use crate::words::{value_found, Asked, Told};
use seg2::{File, Location, Number, Quick, Refusal, Trace};
use std::ffi::OsStr;
use std::os::unix::ffi::OsStrExt;

/// A part of an accepted file.
enum Part<'a> {
    File(File<'a>),
    Trace(Trace<'a>),
}

impl<'a> Part<'a> {
    fn value(&self, keyword: &[u8]) -> Option<&'a [u8]> {
        match self {
            Part::File(file) => file.value(keyword),
            Part::Trace(trace) => trace.value(keyword),
        }
    }

    fn number(&self, keyword: &[u8]) -> Result<Number, Refusal> {
        match self {
            Part::File(file) => file.number(keyword),
            Part::Trace(trace) => trace.number(keyword),
        }
    }

    fn double(&self, keyword: &[u8]) -> Result<f64, Refusal> {
        match self {
            Part::File(file) => file.double(keyword),
            Part::Trace(trace) => trace.double(keyword),
        }
    }

    fn location(&self, keyword: &[u8]) -> Result<Location, Refusal> {
        match self {
            Part::File(file) => file.location(keyword),
            Part::Trace(trace) => trace.location(keyword),
        }
    }
}

/// As what a value is asked for, where not as text.
#[derive(Clone, Copy)]
enum Kind {
    Number,
    Double,
    Location,
}

impl Kind {
    fn of(word: Option<&OsStr>) -> Answer<Option<Kind>> {
        let word = word.map_or("text".into(), OsStr::to_string_lossy);
        Ok(match word.as_ref() {
            "text" => None,
            "number" => Some(Kind::Number),
            "double" => Some(Kind::Double),
            "location" => Some(Kind::Location),
            _ => {
                return Err(unusable(format!(
                    "`{word}` is no kind of value: text, number, double or location"
                )))
            }
        })
    }
}

/// Prints a value, or says that there is none: status 1.
pub fn run(given: &Options) -> Answer {
    let [name, part, keyword] = given.exactly()?;
    let kind = Kind::of(given.value("--as"))?;
    let index = index_of(part)?;
    let bytes = files::shot(name)?;
    let mut said = match (index, kind) {
        (Some(index), None) => text_of_trace(name, &bytes, index, keyword)?,
        (None, None) => text_of_file(name, &bytes, keyword)?,
        (_, Some(kind)) => number_of(name, &bytes, index, keyword, kind)?.into_bytes(),
    };
    said.push(b'\n');
    print(&said)
}

/// A trace's value as it stands there: without a check of the whole file (document 02, §5).
fn text_of_trace(name: &OsStr, bytes: &[u8], index: usize, keyword: &OsStr) -> Answer<Vec<u8>> {
    let quick = Quick::new(bytes);
    let lines: Result<Vec<&[u8]>, Refusal> = match keyword.as_bytes() {
        b"NOTE" => quick.note(index).map(Iterator::collect),
        key => quick.value(index, key).map(Vec::from_iter),
    };
    let lines = lines.map_err(|refusal| Told::of_trace(name, bytes, index, &refusal).stop())?;
    joined(&lines).ok_or_else(|| absent(name, &format!("trace {index}"), keyword))
}

/// A value of the file itself, behind the check.
fn text_of_file(name: &OsStr, bytes: &[u8], keyword: &OsStr) -> Answer<Vec<u8>> {
    let file = open(name, bytes)?;
    let lines: Vec<&[u8]> = match keyword.as_bytes() {
        b"NOTE" => file.note().collect(),
        key => Vec::from_iter(file.value(key)),
    };
    joined(&lines).ok_or_else(|| absent(name, "the file", keyword))
}

/// The lines of a value on lines of their own. One that is there has a line at least, be it
/// an empty one.
fn joined(lines: &[&[u8]]) -> Option<Vec<u8>> {
    (!lines.is_empty()).then(|| lines.join(&b'\n'))
}

/// A value as a number of some kind, behind the check.
fn number_of(
    name: &OsStr,
    bytes: &[u8],
    index: Option<usize>,
    keyword: &OsStr,
    kind: Kind,
) -> Answer<String> {
    let file = open(name, bytes)?;
    let part = match index {
        None => Part::File(file),
        Some(index) => Part::Trace(trace_of(name, &file, index)?),
    };
    let said = number(&part, keyword.as_bytes(), kind);
    said.map_err(|refusal| told(name, &part, keyword, kind, &refusal))
}

/// A value as a number of some kind; a keyword that is missing has none.
fn number(part: &Part, keyword: &[u8], kind: Kind) -> Result<String, Refusal> {
    Ok(match kind {
        Kind::Number => part.number(keyword)?.text()?,
        Kind::Double => decimal(part.double(keyword)?),
        Kind::Location => coordinates(part, keyword)?,
    })
}

fn told(name: &OsStr, part: &Part, keyword: &OsStr, kind: Kind, refusal: &Refusal) -> Stop {
    let asked = match kind {
        Kind::Location => Asked::Location,
        Kind::Number | Kind::Double => Asked::Number,
    };
    let keyword = keyword.as_bytes();
    let found = value_found(refusal, keyword, part.value(keyword), asked);
    Told::new(name, refusal, found).stop()
}

/// F or -1 is the file, any other number a trace.
fn index_of(part: &OsStr) -> Answer<Option<usize>> {
    if part == "F" || part == "-1" {
        return Ok(None);
    }
    whole(part, "part: F for the file, else a trace's number").map(Some)
}

fn absent(name: &OsStr, part: &str, keyword: &OsStr) -> Stop {
    let (name, keyword) = (told_name(name), told_name(keyword));
    refused(format!("{name}: {part} has no keyword {keyword}"))
}

/// As many values as there are, each with the decimals that it was written with.
fn coordinates(part: &Part, keyword: &[u8]) -> Result<String, Refusal> {
    part.location(keyword)?;
    let value = part.value(keyword).unwrap_or_default();
    let texts = value.split(|byte| b" \t".contains(byte));
    let texts = texts.filter(|text| !text.is_empty());
    let values: Result<Vec<_>, _> = texts.map(|text| Number::read(text)?.text()).collect();
    Ok(values?.join(" "))
}
