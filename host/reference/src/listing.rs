//! A file's listing, and the listing program's output: document 01, "Worked values".

use crate::check::{check, File};
use crate::questions::note_lines;
use crate::refusal::Refusal;
use crate::strings::{StringPlace, NOTE};
use crate::words::Order;

/// Row 19: "the listing program's input exceeds 65,536 bytes".
pub const LISTING_MAXIMUM: usize = 65_536;

/// What the listing program prints for one file from standard input. "19 comes before
/// all others."
pub fn listing_program(input: &[u8]) -> Vec<u8> {
    match input.len() > LISTING_MAXIMUM {
        true => refusal_line(Refusal::file(19, 0)),
        false => listing(input),
    }
}

/// The listing of a file of any length. "A refusal prints one line only: R, number,
/// part (F for -1), place".
pub fn listing(input: &[u8]) -> Vec<u8> {
    match check(input, input.len()) {
        Ok(file) => file_lines(input, &file),
        Err(refusal) => refusal_line(refusal),
    }
}

fn refusal_line(refusal: Refusal) -> Vec<u8> {
    let part = match refusal.part {
        -1 => "F".to_string(),
        trace => trace.to_string(),
    };
    format!("R\t{}\t{}\t{}\n", refusal.number, part, refusal.place).into_bytes()
}

/// "Order (low or high), N, M"; "The file's strings come first, then each trace's
/// T line with its strings."
fn file_lines(input: &[u8], file: &File) -> Vec<u8> {
    let order = match file.order {
        Order::Low => "low",
        Order::High => "high",
    };
    let mut out = format!("SEG2\t{}\t{}\t{}\n", order, file.n, file.m).into_bytes();
    string_lines(&mut out, input, file, "F", &file.strings);
    for (k, trace) in file.traces.iter().enumerate() {
        out.extend(format!("T\t{}\t{}\t{}\n", k, trace.code, trace.s).bytes());
        string_lines(&mut out, input, file, &k.to_string(), &trace.strings);
    }
    out
}

/// "part, keyword, value"; "each NOTE line (a part between line terminators, also
/// an empty one) as its own S line".
fn string_lines(out: &mut Vec<u8>, input: &[u8], file: &File, part: &str, strings: &[StringPlace]) {
    for string in strings {
        let keyword = &input[string.keyword.clone()];
        let value = &input[string.value.clone()];
        let lines = if keyword == NOTE {
            note_lines(file, value)
        } else {
            vec![value]
        };
        for line in lines {
            let printed = without_tabs(line);
            out.extend(
                [
                    b"S\t",
                    part.as_bytes(),
                    b"\t",
                    keyword,
                    b"\t",
                    &printed,
                    b"\n",
                ]
                .concat(),
            );
        }
    }
}

/// "A tab in a value prints as a space".
fn without_tabs(text: &[u8]) -> Vec<u8> {
    text.iter()
        .map(|&c| if c == b'\t' { b' ' } else { c })
        .collect()
}
