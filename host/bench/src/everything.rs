//! Everything of a file by one check and then the quick questions on each trace: what an app
//! does that opens a file. Both sides make the same judgments, as each question judges what
//! it reads.

use crate::{check, fewer, order_name};
use seg2::calls;
use seg2_bench::files::file;
use seg2_bench::plain_number::Location;
use seg2_bench::plain_quick::Block;
use seg2_bench::time::{least, Work};
use seg2_bench::{plain_file, plain_quick};
use std::hint::black_box;

const SAMPLES: usize = 500;
const AT: &[u8] = b"RECEIVER_LOCATION";

/// A file, and rows for what is asked of one of its traces. Both sides use the same.
struct Whole {
    file: Vec<u8>,
    traces: i32,
    places: Vec<usize>,
    samples: Vec<i32>,
}

impl Whole {
    fn new(order: u32, traces: usize) -> Whole {
        Whole {
            file: file(order, traces, SAMPLES),
            traces: traces as i32,
            places: vec![0; 64],
            samples: vec![0; SAMPLES],
        }
    }

    /// A question on each trace.
    fn of_each<A>(&mut self, ask: impl Fn(&mut Whole, i32) -> A) {
        for trace in 0..self.traces {
            black_box(ask(self, black_box(trace)));
        }
    }

    /// Both sides answer the same, and leave the same in the rows.
    fn compare(&mut self) {
        for trace in 0..self.traces {
            let asked = proved::all(self, trace);
            let (places, samples) = (self.places.clone(), self.samples.clone());
            self.places.fill(0);
            self.samples.fill(0);
            assert_eq!(plain::all(self, trace), asked);
            assert!(places == self.places && samples == self.samples);
            let (_, strings, (values, _, _)) = asked;
            assert_eq!((strings, values), (7, 3));
        }
    }
}

/// Of one trace, what is no row: the block, how many strings, the location. The rows are as
/// long as the block and the count have told.
macro_rules! all {
    () => {
        pub fn all(w: &mut Whole, trace: i32) -> (Block, usize, Location) {
            let block = block(w, trace);
            let strings = strings(w, trace);
            let at = location(w, trace);
            samples(w, trace, block.3);
            (block, strings, at)
        }
    };
}

/// The archive.
mod proved {
    use super::*;

    all!();

    pub fn block(w: &mut Whole, trace: i32) -> Block {
        let a = calls::quick_trace_block(&w.file, w.file.len(), trace);
        assert_eq!(a.number, 0);
        let (start, b, d) = (a.start, a.block_size, a.data_size);
        (start, b, d, a.sample_count, a.format_code)
    }

    pub fn strings(w: &mut Whole, trace: i32) -> usize {
        let a = calls::quick_string_count(&w.file, w.file.len(), trace);
        let row = &mut w.places[..4 * a.count];
        let b = calls::quick_strings(&w.file, w.file.len(), trace, row);
        assert_eq!((a.number, b.number), (0, 0));
        a.count
    }

    pub fn location(w: &mut Whole, trace: i32) -> Location {
        let a = calls::quick_location(&w.file, w.file.len(), trace, AT);
        assert_eq!(a.number, 0);
        let decimals = [a.x_decimals, a.y_decimals, a.z_decimals];
        (a.count, [a.x, a.y, a.z], decimals)
    }

    pub fn samples(w: &mut Whole, trace: i32, count: usize) {
        let row = &mut w.samples[..count];
        let a = calls::quick_integers(&w.file, w.file.len(), trace, row);
        assert_eq!(a.number, 0);
    }
}

/// Plain Rust.
mod plain {
    use super::*;

    all!();

    pub fn block(w: &mut Whole, trace: i32) -> Block {
        plain_quick::block(&w.file, w.file.len(), trace).expect("a block")
    }

    pub fn strings(w: &mut Whole, trace: i32) -> usize {
        let count = plain_quick::string_count(&w.file, w.file.len(), trace);
        let count = count.expect("strings");
        let row = &mut w.places[..4 * count];
        plain_quick::strings(&w.file, w.file.len(), trace, row).expect("places");
        count
    }

    pub fn location(w: &mut Whole, trace: i32) -> Location {
        let at = plain_quick::location(&w.file, w.file.len(), trace, AT);
        at.expect("a location")
    }

    pub fn samples(w: &mut Whole, trace: i32, count: usize) {
        let row = &mut w.samples[..count];
        plain_quick::integers(&w.file, w.file.len(), trace, row).expect("samples");
    }
}

/// What is timed, by both sides.
type Timed<'a> = (&'a str, Work<'a, Whole>, Work<'a, Whole>);

/// The check of the whole file.
fn checked(w: &mut Whole) {
    black_box(check(&w.file));
}

fn checked_plainly(w: &mut Whole) {
    let _ = black_box(plain_file::check(&w.file, w.file.len(), false));
}

/// A question on each trace by both sides.
macro_rules! each {
    ($what:literal, $question:ident $(, $given:expr)*) => {
        (
            $what,
            &|w: &mut Whole| w.of_each(|w, k| proved::$question(w, k $(, $given)*)),
            &|w: &mut Whole| w.of_each(|w, k| plain::$question(w, k $(, $given)*)),
        )
    };
}

pub fn table(rounds: usize) {
    println!("\nEverything of a file, by one check and then the quick questions on each trace of {SAMPLES} samples: its block; how many strings it has, and the places of all of them; RECEIVER_LOCATION; its samples. Nanoseconds a trace.\n");
    println!("| traces | order | what | proved | plain | proved/plain |");
    println!("|---|---|---|---|---|---|");
    let timed: [Timed; 6] = [
        ("the check", &checked, &checked_plainly),
        each!("the blocks", block),
        each!("the strings", strings),
        each!("the locations", location),
        each!("the samples", samples, SAMPLES),
        (
            "everything",
            &|w| {
                checked(w);
                w.of_each(proved::all);
            },
            &|w| {
                checked_plainly(w);
                w.of_each(plain::all);
            },
        ),
    ];
    for traces in [24, 2_000, 16_000] {
        for order in [0, 1] {
            let mut whole = Whole::new(order, traces);
            whole.compare();
            for (what, ours, plain) in timed {
                let times = least(&mut whole, fewer(rounds, traces), [ours, plain]);
                let [a, b] = times.map(|t| t / traces as f64);
                println!(
                    "| {traces} | {} | {what} | {a:.1} | {b:.1} | {:.2} |",
                    order_name(order),
                    a / b
                );
            }
        }
    }
}
