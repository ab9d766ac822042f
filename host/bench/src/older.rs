//! Older recorders (document 02, §11): the lenient questions beside plain Rust, on a file that
//! keeps the rules and on the same file as an older recorder would write it.

use crate::{check, fewer, order_name};
use seg2::{calls, raw};
use seg2_bench::files::{file, older_file};
use seg2_bench::plain_file::Refused;
use seg2_bench::plain_lenient::{self, Told};
use seg2_bench::time::{least, Work};
use std::hint::black_box;

const SAMPLES: usize = 500;

/// A file, and rows for what is asked of one of its traces. Both sides use the same.
struct Old {
    file: Vec<u8>,
    last: i32,
    places: Vec<usize>,
    samples: Vec<i32>,
}

/// The files: a name, and from which part on the strings are those of an older recorder, if
/// there is one. Of the second the strict check ends at once, of the third near the end.
fn files(order: u32, traces: usize) -> [(&'static str, Vec<u8>); 3] {
    let older = |from| older_file(order, traces, SAMPLES, from);
    [
        ("keeps the rules", file(order, traces, SAMPLES)),
        ("old", older(-1)),
        ("old in its last trace", older(traces as i64 - 1)),
    ]
}

impl Old {
    fn new(file: Vec<u8>, traces: usize) -> Old {
        Old {
            file,
            last: traces as i32 - 1,
            places: vec![0; 4 * 7],
            samples: vec![0; SAMPLES],
        }
    }

    fn rows(&mut self) -> (Vec<usize>, Vec<i32>) {
        let rows = (self.places.clone(), self.samples.clone());
        self.places.fill(0);
        self.samples.fill(0);
        rows
    }

    /// Both sides answer the same, accept, and leave the same in the rows.
    fn compare(&mut self) {
        let proved = (proved::checked(self), proved::value(self));
        let rows = (proved::strings(self), proved::integers(self), self.rows());
        assert_eq!((plain::checked(self), plain::value(self)), proved);
        let plainly = (plain::strings(self), plain::integers(self), self.rows());
        assert_eq!(plainly, rows);
        let length = self.file.len();
        let needed = plain_lenient::check_as_needed(&self.file, length);
        assert_eq!(needed, proved.0);
        let (start, size) = proved.1 .0.expect("an answer");
        assert_eq!(&self.file[start..start + size], b"4");
        assert!(proved.0 .0.is_ok() && rows.0 .0.is_ok() && rows.1 .0.is_ok());
    }
}

/// The archive, as the other side is called.
mod proved {
    use super::*;

    fn refused(verdict: raw::Verdict) -> Result<(), Refused> {
        match verdict.number {
            0 => Ok(()),
            number => Err((number, verdict.part, verdict.place)),
        }
    }

    fn told(a: raw::Lenient<raw::Verdict>) -> Told<()> {
        (refused(a.answer), refused(a.strict).err())
    }

    pub fn checked(w: &mut Old) -> Told<()> {
        told(calls::lenient_check(&w.file, w.file.len()))
    }

    pub fn value(w: &mut Old) -> Told<(usize, usize)> {
        let a = calls::lenient_value(&w.file, w.file.len(), w.last, black_box(b"STACK"));
        let value = match a.answer.number {
            0 => Ok((a.answer.value_start, a.answer.value_length)),
            number => Err((number, a.answer.part, a.answer.place)),
        };
        (value, refused(a.strict).err())
    }

    pub fn strings(w: &mut Old) -> Told<()> {
        let row = &mut w.places;
        told(calls::lenient_strings(&w.file, w.file.len(), w.last, row))
    }

    pub fn integers(w: &mut Old) -> Told<()> {
        let row = &mut w.samples;
        told(calls::lenient_integers(&w.file, w.file.len(), w.last, row))
    }
}

/// Plain Rust.
mod plain {
    use super::*;

    pub fn checked(w: &mut Old) -> Told<()> {
        plain_lenient::check(&w.file, w.file.len())
    }

    pub fn value(w: &mut Old) -> Told<(usize, usize)> {
        plain_lenient::value(&w.file, w.file.len(), w.last, black_box(b"STACK"))
    }

    pub fn strings(w: &mut Old) -> Told<()> {
        plain_lenient::strings(&w.file, w.file.len(), w.last, &mut w.places)
    }

    pub fn integers(w: &mut Old) -> Told<()> {
        plain_lenient::integers(&w.file, w.file.len(), w.last, &mut w.samples)
    }
}

pub fn tables(rounds: usize) {
    checks(rounds);
    questions(rounds);
}

/// The strict check alone stands beside it: what the second one costs.
fn checks(rounds: usize) {
    println!("\nThe lenient check, which both sides make beside the strict one. The old file has its strings backwards, in lower case and without end marks, so that the strict check refuses it at its first string. The last column is plain Rust without the lenient check where the strict one accepts.\n");
    println!("| traces | file | order | strict us | lenient us | plain us | lenient/plain | plain, as needed us |");
    println!("|---|---|---|---|---|---|---|---|");
    for traces in [24, 2_000] {
        for order in [0, 1] {
            for (name, file) in files(order, traces) {
                let mut old = Old::new(file, traces);
                old.compare();
                let strict: Work<Old> = &|w| {
                    black_box(check(&w.file));
                };
                let ours: Work<Old> = &|w| {
                    let _ = black_box(proved::checked(w));
                };
                let plain: Work<Old> = &|w| {
                    let _ = black_box(plain::checked(w));
                };
                let needed: Work<Old> = &|w| {
                    let _ = black_box(plain_lenient::check_as_needed(&w.file, w.file.len()));
                };
                let work = [strict, ours, plain, needed];
                let times = least(&mut old, fewer(rounds, traces), work);
                let [a, b, c, d] = times.map(|t| t / 1e3);
                println!(
                    "| {traces} | {name} | {} | {a:.2} | {b:.2} | {c:.2} | {:.2} | {d:.2} |",
                    order_name(order),
                    b / c
                );
            }
        }
    }
}

/// A question by both sides.
macro_rules! both {
    ($what:literal, $question:ident) => {
        (
            $what,
            &|w: &mut Old| {
                let _ = black_box(proved::$question(w));
            },
            &|w: &mut Old| {
                let _ = black_box(plain::$question(w));
            },
        )
    };
}

/// What is timed, by both sides.
type Timed<'a> = (&'a str, Work<'a, Old>, Work<'a, Old>);

fn questions(rounds: usize) {
    println!("\nLenient questions on the last trace, low byte first: the value of STACK, the places of its seven strings, its {SAMPLES} samples. Both checks are in each.\n");
    println!("| traces | file | question | proved us | plain us | proved/plain |");
    println!("|---|---|---|---|---|---|");
    let timed: [Timed; 3] = [
        both!("value", value),
        both!("strings", strings),
        both!("samples", integers),
    ];
    for traces in [24, 2_000] {
        for (name, file) in files(0, traces).into_iter().take(2) {
            let mut old = Old::new(file, traces);
            for (what, ours, plain) in timed {
                let [a, b] = least(&mut old, fewer(rounds, traces), [ours, plain]);
                println!(
                    "| {traces} | {name} | {what} | {:.2} | {:.2} | {:.2} |",
                    a / 1e3,
                    b / 1e3,
                    a / b
                );
            }
        }
    }
}
