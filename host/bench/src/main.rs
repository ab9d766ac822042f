//! The proved archive beside plain Rust and beside a copy of the same bytes, on the
//! same buffers in one run; or an archive beside an older one. Usage:
//! `seg2_bench [--before OLD.so NEW.so] [ROUNDS]`.

mod before;
mod everything;
mod older;

use seg2::calls;
use seg2_bench::files::{file, file_of_one, file_with, started, trace_sheet, unnumbered_sheet};
use seg2_bench::time::{least, Work};
use seg2_bench::{plain, plain_file, plain_quick, processor};
use seg2_reference::{trace_block, Order, Row};
use std::hint::black_box;

/// Enough for a long trace; a multiple of 4, as code 3 needs.
const SAMPLES: usize = 32_768;
/// Timed rounds, unless another number is asked for.
const ROUNDS: usize = 200;

/// The two archives that are to be compared, if there are such, and how many rounds.
fn asked(words: &[String]) -> Option<(Option<[&str; 2]>, usize)> {
    let words: Vec<&str> = words.iter().map(String::as_str).collect();
    let (archives, rest) = match &words[..] {
        ["--before", older, newer, rest @ ..] => (Some([*older, *newer]), rest),
        rest => (None, rest),
    };
    let rounds = match rest {
        [] => ROUNDS,
        [word] => word.parse().ok().filter(|&n| n > 0)?,
        _ => return None,
    };
    Some((archives, rounds))
}

fn stop(words: &str) -> ! {
    eprintln!("{words}");
    std::process::exit(2);
}

fn main() {
    let words: Vec<String> = std::env::args().skip(1).collect();
    let Some((archives, rounds)) = asked(&words) else {
        stop("usage: seg2_bench [--before OLD.so NEW.so] [ROUNDS]");
    };
    println!("Processor: {}.", processor::here());
    if let Some(load) = processor::load() {
        println!("Load of the machine in the minute before: {load}.");
    }
    println!("Least times of {rounds} rounds, the kinds of work by turns that change from round to round.");
    if let Some(archives) = archives {
        let table = before::table(archives, rounds);
        return table.unwrap_or_else(|| stop("one of the two is no shared library of an archive"));
    }
    checks(rounds);
    channels(rounds);
    long_texts(rounds);
    values(rounds);
    each_trace(rounds);
    one_trace(rounds);
    everything::table(rounds);
    older::tables(rounds);
    samples(rounds);
    searches(rounds);
    additions(rounds);
    growth(rounds);
}

// ---- the archive, as the other side is called

fn check(buffer: &[u8]) -> plain_file::Refused {
    let verdict = calls::check(buffer, buffer.len());
    (verdict.number, verdict.part, verdict.place)
}

fn value(buffer: &[u8], part: i32, key: &[u8]) -> (u32, usize, usize) {
    let answer = calls::value(buffer, buffer.len(), part, key);
    (answer.number, answer.value_start, answer.value_length)
}

fn quick_value(buffer: &[u8], trace: i32, key: &[u8]) -> (u32, usize, usize) {
    let answer = calls::quick_value(buffer, buffer.len(), trace, key);
    (answer.number, answer.value_start, answer.value_length)
}

fn add(buffer: &mut [u8], length: usize, sheet: &[u8], code: u32, row: &Row) -> (u32, usize) {
    let answer = match row {
        Row::Integers(row) => calls::add_integers(buffer, length, sheet, code, row),
        Row::Bits(row) => calls::add_bits(buffer, length, sheet, code, row),
    };
    (answer.number, answer.length)
}

fn add_plainly(
    buffer: &mut [u8],
    length: usize,
    sheet: &[u8],
    code: u32,
    row: &Row,
) -> (u32, usize) {
    let answer = match row {
        Row::Integers(row) => plain_file::add_integers(buffer, length, sheet, code, row),
        Row::Bits(row) => plain_file::add_bits(buffer, length, sheet, code, row),
    };
    answer.map_or_else(|refused| (refused.0, 0), |length| (0, length))
}

// ---- the tables

/// A file and as many bytes beside it, for the copy.
struct Copied {
    file: Vec<u8>,
    beside: Vec<u8>,
}

impl Copied {
    fn new(file: Vec<u8>) -> Copied {
        let beside = vec![0; file.len()];
        Copied { file, beside }
    }
}

fn copied(order: u32, traces: usize, samples: usize) -> Copied {
    Copied::new(file(order, traces, samples))
}

const COPY: Work<Copied> = &|b| {
    b.beside.copy_from_slice(&b.file);
    black_box(&mut b.beside);
};

fn order_name(order: u32) -> &'static str {
    match order {
        0 => "low",
        _ => "high",
    }
}

fn checked(buffers: &mut Copied, rounds: usize) -> [f64; 3] {
    assert_eq!(check(&buffers.file), (0, -1, 0));
    let length = buffers.file.len();
    assert!(plain_file::check(&buffers.file, length, false).is_ok());
    let ours: Work<Copied> = &|b| {
        black_box(check(&b.file));
    };
    let plain: Work<Copied> = &|b| {
        black_box(plain_file::check(&b.file, b.file.len(), false).is_ok());
    };
    least(buffers, rounds, [ours, plain, COPY])
}

fn checks(rounds: usize) {
    println!(
        "\nCheck of a whole file. The copy is of all its bytes; the check reads no data block.\n"
    );
    println!("| traces | samples each | order | bytes | proved us | plain us | proved/plain | proved/copy |");
    println!("|---|---|---|---|---|---|---|---|");
    for (traces, samples) in [
        (12, 1_000),
        (24, 2_000),
        (24, 4_000),
        (2_000, 1_000),
        (2_000, 4_000),
    ] {
        for order in [0, 1] {
            let mut buffers = copied(order, traces, samples);
            let bytes = buffers.file.len();
            // A copy of many megabytes takes long.
            let rounds = if bytes > 4_000_000 {
                rounds.div_ceil(8)
            } else {
                rounds
            };
            let [a, b, c] = checked(&mut buffers, rounds);
            println!(
                "| {traces} | {samples} | {} | {bytes} | {:.2} | {:.2} | {:.2} | {:.3} |",
                order_name(order),
                a / 1e3,
                b / 1e3,
                a / b,
                a / c
            );
        }
    }
}

/// The traces' sheet by the channel.
type SheetOf = fn(usize) -> Vec<u8>;

/// Both sides keep the rule of document 02, section 7, in the one pass over the strings.
fn channels(rounds: usize) {
    println!("\nCheck of a file with channel numbers in all traces, which have seven strings each, and in none: the other six.\n");
    println!("| traces | channel numbers | order | proved us | plain us | proved/plain |");
    println!("|---|---|---|---|---|---|");
    let sheets: [(&str, SheetOf); 2] = [("in all", trace_sheet), ("in none", unnumbered_sheet)];
    for traces in [24, 2_000] {
        for (name, sheet) in sheets {
            for order in [0, 1] {
                let file = file_with(order, traces, 1_000, |k| sheet(k + 1));
                let [a, b, _] = checked(&mut Copied::new(file), rounds);
                println!(
                    "| {traces} | {name} | {} | {:.2} | {:.2} | {:.2} |",
                    order_name(order),
                    a / 1e3,
                    b / 1e3,
                    a / b
                );
            }
        }
    }
}

fn long_texts(rounds: usize) {
    println!(
        "\nCheck of a file of 24 traces whose texts are long: 2,000 characters in each trace.\n"
    );
    println!("| texts | order | proved us | plain us | proved/plain |");
    println!("|---|---|---|---|---|");
    let value = [b"COMMENT\t", &[b'x'; 2_000][..], b"\n"].concat();
    let note = [b"NOTE\t", &[b'x'; 80][..], b"\n"].concat().repeat(25);
    for (name, sheet) in [("one value", value), ("a NOTE of 25 lines", note)] {
        for order in [0, 1] {
            let mut buffers = Copied::new(file_with(order, 24, 1_000, |_| sheet.clone()));
            let [a, b, _] = checked(&mut buffers, rounds);
            println!(
                "| {name} | {} | {:.2} | {:.2} | {:.2} |",
                order_name(order),
                a / 1e3,
                b / 1e3,
                a / b
            );
        }
    }
}

fn values(rounds: usize) {
    println!(
        "\nA keyword's value in the last trace: the check of the whole file, then the search.\n"
    );
    println!("| traces | order | keyword | proved us | plain us | proved/plain |");
    println!("|---|---|---|---|---|---|");
    for (traces, order) in [(12, 0), (24, 0), (24, 1), (2_000, 0)] {
        for key in ["STACK", "ABSENT"] {
            let mut buffers = copied(order, traces, 1_000);
            let (part, key) = (traces as i32 - 1, key.as_bytes());
            let (_, start, size) = value(&buffers.file, part, key);
            let length = buffers.file.len();
            let plainly = plain_file::value(&buffers.file, length, part, key);
            assert_eq!(plainly, Ok((start, size)));
            let ours: Work<Copied> = &|b| {
                black_box(value(&b.file, part, black_box(key)));
            };
            let plain: Work<Copied> = &|b| {
                let length = b.file.len();
                let _ = black_box(plain_file::value(&b.file, length, part, black_box(key)));
            };
            let [a, b] = least(&mut buffers, rounds, [ours, plain]);
            println!(
                "| {traces} | {} | {} | {:.2} | {:.2} | {:.2} |",
                order_name(order),
                String::from_utf8_lossy(key),
                a / 1e3,
                b / 1e3,
                a / b
            );
        }
    }
}

/// Fewer rounds where one takes long.
fn fewer(rounds: usize, traces: usize) -> usize {
    match traces > 1_000 {
        true => rounds.div_ceil(8),
        false => rounds,
    }
}

/// A full question makes the check of the whole file first, so such a question for each trace
/// grows with the square of their number. The listing makes one check, one more for each of
/// the two questions on the file's own strings, and asks the traces quickly.
fn each_trace(rounds: usize) {
    println!("\nA value of each trace: one question that makes the check, and that times the traces. Opened and listed: all blocks and strings by Rust's wrapper, as `./seg2 list` goes.\n");
    println!(
        "| traces | one question us | for each trace ms | opened and listed ms | ns a trace |"
    );
    println!("|---|---|---|---|---|");
    for traces in [24, 240, 2_000, 16_000] {
        let mut bytes = file(0, traces, 500);
        let part = traces as i32 / 2;
        assert_eq!(value(&bytes, part, b"STACK").0, 0);
        let ask: Work<Vec<u8>> = &|file| {
            black_box(value(file, part, black_box(b"STACK")));
        };
        let list: Work<Vec<u8>> = &|file| {
            let open = seg2::File::open(file).expect("a file");
            let mut strings = open.strings().count();
            for trace in open.traces() {
                black_box(trace.block());
                strings += trace.strings().map(black_box).count();
            }
            assert_eq!(strings, 7 + 7 * traces);
        };
        let [a, b] = least(&mut bytes, fewer(rounds, traces), [ask, list]);
        let each = traces as f64;
        println!(
            "| {traces} | {:.1} | {:.2} | {:.3} | {:.0} |",
            a / 1e3,
            a * each / 1e6,
            b / 1e6,
            b / each
        );
    }
}

/// Document 02, section 5: what one trace's value costs does not grow with the file.
fn one_trace(rounds: usize) {
    println!("\nThe value of STACK, the last of seven strings, in one trace: quickly, which reads no other trace, and by the question that makes the check first.\n");
    println!(
        "| traces | order | trace | quick ns | plain ns | quick/plain | full us | full/quick |"
    );
    println!("|---|---|---|---|---|---|---|---|");
    for traces in [12, 2_000, 16_000] {
        for order in [0, 1] {
            let mut bytes = file(order, traces, 500);
            for trace in [traces / 2, traces - 1] {
                let [a, b] = quickly(&mut bytes, trace as i32, rounds);
                let c = fully(&mut bytes, trace as i32, rounds);
                println!(
                    "| {traces} | {} | {trace} | {a:.1} | {b:.1} | {:.2} | {:.2} | {:.0} |",
                    order_name(order),
                    a / b,
                    c / 1e3,
                    c / a
                );
            }
        }
    }
}

/// Times of the quick question: proved and plain.
fn quickly(bytes: &mut Vec<u8>, trace: i32, rounds: usize) -> [f64; 2] {
    let (number, start, size) = quick_value(bytes, trace, b"STACK");
    assert_eq!((number, &bytes[start..start + size]), (0, &b"4"[..]));
    let plainly = plain_quick::value(bytes, bytes.len(), trace, b"STACK");
    assert_eq!(plainly, Ok((start, size)));
    let ours: Work<Vec<u8>> = &|file| {
        black_box(quick_value(file, black_box(trace), black_box(b"STACK")));
    };
    let plain: Work<Vec<u8>> = &|file| {
        let (trace, key) = (black_box(trace), black_box(b"STACK"));
        let _ = black_box(plain_quick::value(file, file.len(), trace, key));
    };
    least(bytes, rounds, [ours, plain])
}

/// The time of the full question.
fn fully(bytes: &mut Vec<u8>, trace: i32, rounds: usize) -> f64 {
    assert_eq!(
        value(bytes, trace, b"STACK"),
        quick_value(bytes, trace, b"STACK")
    );
    let ask: Work<Vec<u8>> = &|file| {
        black_box(value(file, black_box(trace), black_box(b"STACK")));
    };
    let [time] = least(bytes, rounds.div_ceil(8), [ask]);
    time
}

/// A file with one trace, rows for its samples, and a place for the copy. Both sides use
/// the same.
struct Buffers {
    file: Vec<u8>,
    /// Where the data block begins.
    data: usize,
    integers: Vec<i32>,
    patterns: Vec<u64>,
    classes: Vec<u8>,
    beside: Vec<u8>,
}

impl Buffers {
    fn new(order: Order, code: u8) -> Buffers {
        let file = file_of_one(order, code, SAMPLES);
        let trace = trace_block(&file, file.len(), 0).expect("a trace");
        let data = trace.data_start() as usize;
        Buffers {
            beside: vec![0; file.len() - data],
            file,
            data,
            integers: vec![0; SAMPLES],
            patterns: vec![0; SAMPLES],
            classes: vec![0; SAMPLES],
        }
    }

    /// Times of reading: proved, plain, and the copy of the data block. Both have to leave
    /// the same in every row.
    fn timed(&mut self, code: u8, rounds: usize) -> [f64; 3] {
        let (ours, plain): (Work<Buffers>, Work<Buffers>) = match code {
            1..=3 => (
                &|b| {
                    let answer = calls::integers(&b.file, b.file.len(), 0, &mut b.integers);
                    assert_eq!(answer.number, 0);
                },
                &|b| {
                    let answer = plain_file::integers(&b.file, b.file.len(), 0, &mut b.integers);
                    assert!(answer.is_ok());
                },
            ),
            _ => (
                &|b| {
                    let (row, classes) = (&mut b.patterns, &mut b.classes);
                    let answer = calls::bits(&b.file, b.file.len(), 0, row, classes);
                    assert_eq!(answer.number, 0);
                },
                &|b| {
                    let (row, classes) = (&mut b.patterns, &mut b.classes);
                    let answer = plain_file::bits(&b.file, b.file.len(), 0, row, classes);
                    assert!(answer.is_ok());
                },
            ),
        };
        ours(self);
        let integers = std::mem::replace(&mut self.integers, vec![0; SAMPLES]);
        let patterns = std::mem::replace(&mut self.patterns, vec![0; SAMPLES]);
        let classes = std::mem::replace(&mut self.classes, vec![0; SAMPLES]);
        plain(self);
        assert!(integers == self.integers && patterns == self.patterns);
        assert!(classes == self.classes);
        let copy: Work<Buffers> = &|b| {
            b.beside.copy_from_slice(&b.file[b.data..]);
            black_box(&mut b.beside);
        };
        least(self, rounds, [ours, plain, copy])
    }
}

fn samples(rounds: usize) {
    println!("\n{SAMPLES} samples of a file's only trace, nanoseconds a sample: read out of it, and added to a started file. The check of the file is in both, and in adding the search for a sample that the code cannot hold; the copy is of the data, or of the new trace's bytes.\n");
    println!("| code | order | way | proved | plain | copy | proved/plain | proved/copy |");
    println!("|---|---|---|---|---|---|---|---|");
    for code in 1..=5 {
        for (order, name) in [(Order::Low, 0), (Order::High, 1)] {
            let mut buffers = Buffers::new(order, code);
            sample_line(code, name, "read", buffers.timed(code, rounds));
            // What was read is what is written: every sample of it can be held.
            let row = match code {
                1..=3 => Row::Integers(buffers.integers),
                _ => Row::Bits(buffers.patterns),
            };
            let sheet = b"STACK\t4\n".to_vec();
            let mut growing = Growing::of(started(name), sheet, code.into(), row);
            sample_line(code, name, "write", growing.timed(rounds));
        }
    }
}

fn sample_line(code: u8, order: u32, way: &str, times: [f64; 3]) {
    let [a, b, c] = times.map(|t| t / SAMPLES as f64);
    println!(
        "| {code} | {} | {way} | {a:.3} | {b:.3} | {c:.3} | {:.2} | {:.1} |",
        order_name(order),
        a / b,
        a / c
    );
}

/// What the search for a sample that the code cannot hold costs plain Rust in two ways:
/// the proved one is written in the first.
fn searches(rounds: usize) {
    println!("\nThe search alone, plain Rust, nanoseconds a sample: a loop that ends at the first such sample, and one that goes through whole runs.\n");
    println!("| code | ends early | whole runs |");
    println!("|---|---|---|");
    let mut integers: Vec<i32> = (0..SAMPLES as i32).map(|i| i % 30_000).collect();
    let mut patterns: Vec<u64> = (0..SAMPLES as u64).collect();
    for code in [1, 3] {
        let most = if code == 1 { 32_767 } else { (1 << 30) - 1 };
        let early: Work<Vec<i32>> = &|row| {
            let least = black_box(-most);
            black_box(row.iter().position(|&v| v < least || v > most));
        };
        let runs: Work<Vec<i32>> = &|row| {
            black_box(plain::first_outside(code, row));
        };
        search_line(code, least(&mut integers, rounds, [early, runs]));
    }
    let early: Work<Vec<u64>> = &|row| {
        black_box(row.iter().position(|&bits| bits >> 32 != 0));
    };
    let runs: Work<Vec<u64>> = &|row| {
        black_box(plain::first_wide(4, row));
    };
    search_line(4, least(&mut patterns, rounds, [early, runs]));
}

fn search_line(code: u8, times: [f64; 2]) {
    let [early, runs] = times.map(|t| t / SAMPLES as f64);
    println!("| {code} | {early:.3} | {runs:.3} |");
}

/// A file with a free end, what is added, and a place for the copy.
struct Growing {
    buffer: Vec<u8>,
    length: usize,
    sheet: Vec<u8>,
    code: u32,
    row: Row,
    beside: Vec<u8>,
}

impl Growing {
    fn new(order: u32, traces: usize, samples: usize, code: u32, count: usize) -> Growing {
        let row = match code {
            1..=3 => Row::Integers((0..count).map(|i| (i as i32 * 7919) % 30_000).collect()),
            _ => Row::Bits((0..count).map(|i| i as u64 * 7919).collect()),
        };
        let file = file(order, traces, samples);
        Growing::of(file, trace_sheet(traces + 1), code, row)
    }

    fn of(file: Vec<u8>, sheet: Vec<u8>, code: u32, row: Row) -> Growing {
        let count = match &row {
            Row::Integers(row) => row.len(),
            Row::Bits(row) => row.len(),
        };
        let (length, mut buffer) = (file.len(), file);
        buffer.resize(length + 8 * count + 1000, 0);
        Growing {
            buffer,
            length,
            sheet,
            code,
            row,
            beside: Vec::new(),
        }
    }

    /// Takes the new trace out of the file again: N is as before, and the slot behind
    /// the last is not looked at.
    fn undo(&mut self, n: [u8; 2]) {
        self.buffer[6..8].copy_from_slice(&n);
    }

    /// Times of an addition: proved, plain, and the copy of the new trace's bytes.
    fn timed(&mut self, rounds: usize) -> [f64; 3] {
        let n = [self.buffer[6], self.buffer[7]];
        let (number, end) = add(
            &mut self.buffer,
            self.length,
            &self.sheet,
            self.code,
            &self.row,
        );
        assert_eq!(number, 0);
        let after = self.buffer.clone();
        self.undo(n);
        let plainly = add_plainly(
            &mut self.buffer,
            self.length,
            &self.sheet,
            self.code,
            &self.row,
        );
        assert_eq!(plainly, (0, end));
        assert!(after == self.buffer);
        self.undo(n);
        self.beside = vec![0; end - self.length];
        let ours: Work<Growing> = &|g| {
            black_box(add(&mut g.buffer, g.length, &g.sheet, g.code, &g.row));
            g.undo(n);
        };
        let plain: Work<Growing> = &|g| {
            black_box(add_plainly(
                &mut g.buffer,
                g.length,
                &g.sheet,
                g.code,
                &g.row,
            ));
            g.undo(n);
        };
        let copy: Work<Growing> = &|g| {
            let end = g.length + g.beside.len();
            g.beside.copy_from_slice(&g.buffer[g.length..end]);
            black_box(&mut g.beside);
        };
        least(self, rounds, [ours, plain, copy])
    }
}

fn additions(rounds: usize) {
    println!("\nA trace of 4,000 samples added to a file of 24 traces of 4,000 samples; the copy is of the new trace's bytes.\n");
    println!("| code | order | proved us | plain us | proved/plain | proved/copy |");
    println!("|---|---|---|---|---|---|");
    for code in 1..=5 {
        for order in [0, 1] {
            let [a, b, c] = Growing::new(order, 24, 4_000, code, 4_000).timed(rounds);
            println!(
                "| {code} | {} | {:.2} | {:.2} | {:.2} | {:.1} |",
                order_name(order),
                a / 1e3,
                b / 1e3,
                a / b,
                a / c
            );
        }
    }
}

fn growth(rounds: usize) {
    println!("\nGrowth with the number of traces (1,000 samples each, low byte first): the check, and the addition of one trace of 1,000 samples of code 2.\n");
    println!("| traces | check us | ns a trace | proved/plain | addition us | ns a trace | proved/plain |");
    println!("|---|---|---|---|---|---|---|");
    for traces in [1, 10, 100, 1_000] {
        let mut buffers = copied(0, traces, 1_000);
        let rounds = if traces > 100 {
            rounds.div_ceil(4)
        } else {
            rounds
        };
        let [a, b, _] = checked(&mut buffers, rounds);
        let [c, d, _] = Growing::new(0, traces, 1_000, 2, 1_000).timed(rounds);
        let each = traces as f64;
        println!(
            "| {traces} | {:.2} | {:.1} | {:.2} | {:.2} | {:.1} | {:.2} |",
            a / 1e3,
            a / each,
            a / b,
            c / 1e3,
            c / each,
            c / d
        );
    }
}
